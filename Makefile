.PHONY: help lesson report exam steps lib install uninstall bench test tests clean always
.NOTPARALLEL:
.DELETE_ON_ERROR:
unexport CDPATH

library = build/lib/libtinplateau.a
header = build/include/tinplateau.h
PREFIX ?= /usr/local
export PREFIX DESTDIR

help:
	@echo 'make lesson     the main job on an example: proves the lesson program and gives it a lesson file'
	@echo 'make test       all tests, which is what the gate runs'
	@echo 'make report     the class report of an example'
	@echo 'make exam       the exam sheet: every reference value, as the library gives it'
	@echo 'make steps      every step of a sample: its records as a table, and as a picture in target/steps.svg'
	@echo 'make lib        the library for C and Rust: $(library) and $(header)'
	@echo 'make install    installs these and a pkg-config file below PREFIX, here $(PREFIX); DESTDIR goes before it'
	@echo 'make uninstall  removes what make install installs'
	@echo 'make bench      samples, step records, polynomials, the split of noise and converted values beside plain and careful C'
	@echo 'make clean      removes target/, build/ and what is proved and built in the crates'

lesson:
	@tools/prove run lesson_program
	@target/bin/lesson_program <examples/document01.lesson

report:
	@tools/prove run report_program
	@target/bin/report_program <examples/ml_kem_k3.lesson

exam:
	@tools/prove run exam_program
	@target/bin/exam_program

steps: lib
	@mkdir -p target
	@cc -std=c11 -O2 -Wall -Wextra -Ibuild/include examples/steps.c $(library) -o target/steps
	@target/steps >target/steps.records
	@tools/steps table target/steps.records
	@tools/steps picture target/steps.records -o target/steps.svg
	@echo 'The picture is in target/steps.svg.'

lib: $(library) $(header)

# Made anew where a file changes, comes or goes (which changes its folder), or the toolchain does. In out/ is what rt makes.
$(library): build/toolchain crates.txt $(shell find crates -mindepth 2 -name out -prune -o \( -name '*.rt' -o -name '*.antt' -o -type d \) -print)
	@tools/prove lib capi
	@mkdir -p $(@D)
	@cp crates/capi/out/libcapi.a $@

build/toolchain: always
	@mkdir -p $(@D)
	@if command -v rt >/dev/null; then rt version | cmp -s - $@ || rt version >$@; fi

always:

$(header): include/tinplateau.h
	@mkdir -p $(@D)
	@cp $< $@

install: lib
	@tools/install

uninstall:
	@tools/install -r

bench: lib
	@bench/run

# rt ci comes last, and its last line is the last of all. It takes nothing from what is proved for the tests.
test: tests
	@tools/prove ci

# The library comes first, and with it nearly all that the programs stand on.
tests:
	@tools/prove version
	@tools/setup
	@$(MAKE) --silent --no-print-directory lib
	@tools/prove run lesson_program
	@tools/prove run report_program
	@tools/prove run exam_program
	tests/docs
	tests/setup
	tests/compile_refusals
	tests/exam
	tests/lessons
	tests/reports
	tests/lesson_tool
	tests/steps_tool
	tests/archive
	tests/frames
	tests/header
	tests/beside tests/install tests/machine_code
	tests/beside tests/library tests/c_client

clean:
	rm -rf target build crates/*/out
