# The one version: 0. and the number of the declarations, CATALOGUE_VERSION. The pkg-config file, --version and the manual pages have VERSION, the
# shared library's name has NUMBER. INCLUDE is the header's folder.
NUMBER := $(shell sed -n 's/^\#define CATALOGUE_VERSION //p' $(INCLUDE)/catalogue.h)
VERSION = 0.$(NUMBER)
