/* Counters that a test can read. */
#include <string.h>

#include "internal.h"

static struct independent_coverage coverage;

static const char *const rule_names[INDEPENDENT_RULES] = {
    "none",
    "push",
    "pop",
    "v := number",
    "v := v + number",
    "v := w",
    "v := v - w",
    "v := v < w",
    "v := v / w",
    "output",
    "emit becomes @canrun",
    "@canrun(n) at n becomes @nop",
    "if becomes left",
    "if becomes right",
    "@nop;q becomes q",
    "break;q becomes break",
    "loop p becomes p @loop p",
    "@nop @loop q becomes loop q",
    "break @loop q becomes @nop",
    "p and q becomes p @and (@canrun(n);q)",
    "p or q becomes p @or (@canrun(n);q)",
    "@nop @and q becomes q",
    "@nop @or q becomes clear(q)",
    "break @and q becomes clear(q);break",
    "break @or q becomes clear(q);break",
    "p @and @nop becomes p",
    "p @or @nop becomes clear(p)",
    "p @and break becomes clear(p);break",
    "p @or break becomes clear(p);break",
    "within: left of a sequence",
    "within: left of @loop",
    "within: left of @and",
    "within: left of @or",
    "within: right of @and",
    "within: right of @or",
    "awake: await input",
    "awake: await internal",
    "awake: every input",
    "awake: every internal",
};

const struct independent_coverage *independent_coverage_read(void)
{
    return &coverage;
}

void independent_coverage_reset(void)
{
    memset(&coverage, 0, sizeof coverage);
}

const char *independent_rule_name(enum independent_rule rule)
{
    return (size_t)rule < INDEPENDENT_RULES ? rule_names[rule] : "unknown";
}

uint32_t ind_met_refusal(uint32_t number)
{
    if (number < INDEPENDENT_REFUSALS)
        coverage.refusals[number]++;
    return number;
}

void ind_met_rule(enum independent_rule rule)
{
    coverage.rules[rule]++;
}

void ind_met_kind(uint32_t kind)
{
    if (kind < INDEPENDENT_KINDS)
        coverage.kinds[kind]++;
}
