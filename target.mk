# The processor that is built for: TARGET=x86_64 or TARGET=aarch64 on make's command line, else the machine's own. What is built for another one
# goes to target/TARGET, by the tools whose names begin with TOOLS.
MACHINE := $(shell uname -m)
TARGET = $(MACHINE)
ifeq ($(filter $(TARGET),x86_64 aarch64),)
$(error TARGET=$(TARGET): there are x86_64 and aarch64)
endif
ifeq ($(TARGET),$(MACHINE))
BUILD = target
TOOLS =
else
BUILD = target/$(TARGET)
TOOLS = $(TARGET)-linux-gnu-
endif
