# What the makefiles of the C++ side share; each says first where the repository's root is (TOP) and where its programs go (OUT).
.DEFAULT_GOAL := all
LIB := $(TOP)/target/staticlib/libfishdavit.a
CXXFLAGS := -std=c++17 -O2 -Wall -Wextra -Werror -I$(TOP)/include
SANITIZE := -fsanitize=address,undefined -fno-sanitize-recover=all
# What is proved; rt keeps its own work in the folders out/.
PROVED := $(shell find $(TOP)/crates -name out -prune -o '(' -name '*.rt' -o -name '*.antt' ')' -print) $(TOP)/crates.txt

$(OUT):
	mkdir -p $@

# The static library of the proved functions.
$(LIB): $(PROVED)
	$(TOP)/tools/build library
