# Each people/NAME.jsonl is checked once, and again if it or the schema has changed: make -f checks.mk
checked := $(patsubst %.jsonl,%.checked,$(wildcard people/*.jsonl))

all: $(checked)

%.checked: %.jsonl people.schema.json
	neldrafi check people.schema.json $<
	touch $@

.PHONY: all
