# SPDX-License-Identifier: Apache-2.0
# make install PREFIX=/usr/local [DESTDIR=FOLDER]: what tools/install installs. All else is a command of tools/.
PREFIX ?= /usr/local

install:
	tools/install $(if $(DESTDIR),--destdir "$(DESTDIR)") "$(abspath $(PREFIX))"

.PHONY: install
