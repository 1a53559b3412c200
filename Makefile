# make                      builds what is installed: the library for C (c/build) and the program, both proved first, and the library
#                           for firmware (packaging/firmware)
# make install PREFIX=/usr  installs it; DESTDIR=FOLDER puts that below FOLDER
# make dist                 build/dist/gefsunk-VERSION-x86_64.tar.gz, where .ci/run passed this commit
# make deb                  the same as a Debian package
# make check                the gate
PREFIX ?= /usr/local
DESTDIR ?=
export PREFIX DESTDIR

all:
	c/build
	packaging/firmware
	bin/pm_trace decode < /dev/null

install:
	packaging/install

dist:
	packaging/dist

deb:
	packaging/deb

check:
	.ci/run

.PHONY: all install dist deb check
