# make                      proves the C face and makes its archive (x86-64), where a source is newer than the archive
# make install PREFIX=DIR   does the same, and puts archive, header and pkg-config file in place; DESTDIR is put before PREFIX
# make uninstall PREFIX=DIR takes these three files away
#
# ARCHIVE=FILE installs that archive, as it is. A relative PREFIX starts from this folder.
PREFIX = /usr/local
ARCHIVE =
archive = target/staticlib/libcface.a
# Folders too: theirs is the time at which a source was taken away or came in under another name.
sources := crates $(shell find crates/*/src crates/*/specs crates/*/proofs -type d -o -name '*.rt' -o -name '*.antt' 2>/dev/null) crates.txt

# The script gets names as they were typed. Make would cut them at spaces and read dollar signs in them.
unexport PREFIX DESTDIR ARCHIVE
export NYUZOLAMBA_PREFIX := $(value PREFIX)
export NYUZOLAMBA_DESTDIR := $(value DESTDIR)
export NYUZOLAMBA_INSTALLS := $(or $(value ARCHIVE),$(archive))

.PHONY: all install uninstall checked
all: $(archive)

# Names are refused before the archive is made, which takes minutes.
checked:
	@include/install check

# The archive gets the time at which its proof began: a source that was changed since then is newer.
$(archive): $(sources) | $(if $(filter install,$(MAKECMDGOALS)),checked)
	@bash -c '. hosts/kit.sh && have_rt'
	@mkdir -p target && touch target/archive-began
	cd crates/cface_c && rt lib
	@mkdir -p $(@D) && cp crates/cface_c/out/libcface_c.a $@.made && touch -r target/archive-began $@.made && mv $@.made $@

install: checked $(if $(value ARCHIVE),,$(archive))
	@include/install install

uninstall: checked
	@include/install uninstall
