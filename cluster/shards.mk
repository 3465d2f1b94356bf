# make -j4 -f cluster/shards.mk PROG=pc WORDS='--progress pc.s:64'
# Profiles the lines of the file LINES in N shards, and joins them as DIR/whole. N is at most
# the number of lines. A profile with a run that did not exit has status 1, which is no failure.
# coz-shard is that of cluster/ in this folder, or else the installed one.
LINES ?= lines
DIR ?= d
N ?= 7
WORDS ?=
SHARD = $(if $(wildcard cluster/coz-shard),cluster/coz-shard,coz-shard)
SHARDS = $(foreach i,$(shell seq 0 $$(($(N) - 1))),$(DIR)/$(i).profile)

$(DIR)/whole: $(SHARDS)
	coz-join $(SHARDS) > $@.part || [ $$? = 1 ]
	mv $@.part $@

$(DIR)/%.profile: $(LINES)
	mkdir -p $(DIR)
	$(SHARD) $* $(N) $(LINES) $(DIR) $(PROG) --workers 1 $(WORDS)
