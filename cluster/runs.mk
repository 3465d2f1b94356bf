# make -j4 -f cluster/runs.mk RUNS=runs
# Runs the commands of the file RUNS, one on each line, as `coz-study plan` prints them.
RUNS ?= runs
$(if $(wildcard $(RUNS)),,$(error there is no file $(RUNS)))
NUMBERS := $(shell awk '{ print NR }' $(RUNS))

.PHONY: all $(NUMBERS)
all: $(NUMBERS)

$(NUMBERS):
	@sed -n $@p $(RUNS) | sh
