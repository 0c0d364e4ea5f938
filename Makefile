# Hands on the program that ./pesp --prove made; with BUILD=fast or BUILD=unproved one that was compiled without its proofs.
# `make test` tries all programs without their proofs, in minutes; `rt ci` is the gate.
PREFIX = /usr/local
BUILD = proved

.PHONY: all test dist install
all:
	./pesp --prove

test:
	tools/test

dist:
	tools/dist $(BUILD)

install:
	program=$$(tools/chosen $(BUILD)) && tools/install "$$program" "$(DESTDIR)$(PREFIX)"
