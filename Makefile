# try, try_check, test_rules: run the ruler, the rule checker and the rule tester on FILE without a proof, as scripts/try says; the
# rule tester reads the .toml files beside FILE too. OPTIONS are options of the ruler or of the rule checker.
# run: proves and builds the ruler, and runs it on its example.
# check: proves and builds the rule checker, and runs it on a file that a ruler takes and on its example, which none takes.
# test: the whole gate. scripts: its last part, which plays the scripts to the programs that were built last.
# wrong: tries the wrong bodies that the gate leaves out.
.PHONY: try try_check test_rules run check test scripts wrong

PROGRAM = crates/rule_shell
CHECKER = crates/rule_check
TESTER = crates/rule_test
FILE = $(PROGRAM)/stdin

try:
	@scripts/try rule_shell $(if $(OPTIONS),-- $(OPTIONS)) < $(FILE)

try_check: FILE = examples/nginx/rules.toml
try_check:
	@scripts/try rule_check $(if $(OPTIONS),-- $(OPTIONS)) < $(FILE)

test_rules: FILE = examples/nginx/test.toml
test_rules:
	@scripts/try rule_test $(foreach file,$(wildcard $(abspath $(dir $(FILE)))/*.toml),--data $(notdir $(file))=$(file)) \
	    -- $(notdir $(FILE))

run:
	@cd $(PROGRAM) && rt run < stdin

check:
	@cd $(CHECKER) && rt run < ../../scripts/check/two_groups.in && { out/rule_check < stdin || [ $$? -eq 1 ]; }

test:
	@scripts/gate $(PROGRAM)/out/rule_shell $(CHECKER)/out/rule_check $(TESTER)/out/rule_test

scripts:
	@scripts/run $(PROGRAM)/out/rule_shell
	@scripts/run $(CHECKER)/out/rule_check scripts/check
	@scripts/run $(TESTER)/out/rule_test scripts/tests
	@scripts/run_examples $(TESTER)/out/rule_test $(PROGRAM)/out/rule_shell
	@scripts/random_sessions $(PROGRAM)/out/rule_shell $(PROGRAM)/out/rule_shell.by-rattle
	@scripts/run_filters
	@scripts/index --check

wrong:
	@scripts/wrong
