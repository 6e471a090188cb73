# Builds what needs no prover: the library for C, and the programs des_tool and cukvashe, of the assembly in generated/.
#
#   make                all of it, by the compiler that CC names, else cc: the library in bindings/out, the programs here
#   make check          and tests it; what this machine lacks for a test is named, and the test left out
#   make install        the library and cukvashe below PREFIX, and all that below DESTDIR if you make a package; make uninstall removes them
#   make clean
#
# CPPFLAGS, CFLAGS and LDFLAGS are words for the compiler, AR names the archiver, LIBDIR the folder of libraries. Make hands on what of these is
# given.
PREFIX = /usr/local
LIBDIR =
# A word for the shell, whatever characters are in it. Of a path make takes `$` as it is too.
quoted = '$(subst ','\'',$(1))'
# The folder in generated/, words for the compiler, and the libraries.
built := $(shell CC=$(call quoted,$(CC)) bindings/build --names 2>/dev/null)
text := $(addprefix generated/,$(firstword $(built)))
library := $(filter bindings/%,$(built))
programs := $(notdir $(basename $(wildcard $(text)/des_tool.s $(text)/cukvashe.s)))
to = --target $(firstword $(subst /, ,$(built))) $(if $(programs),--programs) --prefix $(call quoted,$(value PREFIX)) \
  $(if $(value LIBDIR),--libdir $(call quoted,$(value LIBDIR))) $(if $(value DESTDIR),--destdir $(call quoted,$(value DESTDIR)))

.PHONY: all check check-library check-programs install uninstall clean always refused
# The tests of the library and of the programs run at once, and take what is built before.
MAKEFLAGS += --jobs=2
all: $(or $(library),refused) $(programs)

# Changes with the compiler and its words, and with it what they made.
made_by = $(call quoted,$(CC) $(built) $(CPPFLAGS) $(CFLAGS) $(LDFLAGS))
out/made_by: always
	@mkdir -p out
	@echo $(made_by) | cmp -s - $@ || echo $(made_by) >$@

# One recipe makes both libraries, which makes before 4.3 take of patterns alone.
%/libcukvashe_des.a $(addprefix %/,$(notdir $(lastword $(library)))): out/made_by VERSION bindings/build bindings/targets \
  $(addprefix bindings/c/,soversion flags cukvashe_des.h) generated/cukvashe_des.h $(wildcard bindings/c/src/* $(text)/library*.s)
	@bindings/build --generated

# Says why nothing is built.
refused:
	@bindings/build --generated

# A program has its name once it is whole.
$(programs): %: $(text)/%.s bindings/programs/system.c out/made_by
	$(CC) -O2 -fPIE -pie $(filter -%,$(built)) $(CPPFLAGS) $(CFLAGS) $(LDFLAGS) -Wl,-z,relro,-z,now -o out/$@ $< bindings/programs/system.c
	@mv out/$@ $@

check: check-library check-programs

# The tests call make themselves, with the words that it was called with, and take none of its jobs.
tests = MAKEFLAGS=$(call quoted,-- $(MAKEOVERRIDES)) CC=$(call quoted,$(CC))

check-library: $(library)
	$(if $(filter generated/x86_64,$(text)),$(tests) bindings/c/test --leave-out,@echo 'the tests of C are left out: here they are for x86-64 with Linux')

check-programs: all
	$(tests) bindings/programs/test $(programs)

install: all
	bindings/install $(to)

uninstall:
	bindings/uninstall $(to)

clean:
	rm -rf des_tool cukvashe out/made_by
	cd bindings && rm -rf $(foreach folder,out out/aarch64 out/riscv64 out/windows out/macos,$(addprefix $(folder)/,bin include lib objects share tests unfinished.*))
