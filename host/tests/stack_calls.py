"""The calls that the stack checks go through, by group: a request that adds a call adds its row here and in stack_depth.c.

For each call its function in C, None where it has none, and in the source, None where it is plain C (host/library), which the source's check does not
read. Of every call but the grouping ones: nothing that it runs may recurse. What the grouping calls run may recurse through the functions of `NESTED`
alone, each of which is on the stack at most `LEVELS` times, whatever the file says (that is proved: the depth is 1 at the top, grows at each nesting, and
either function asks that it is at most 16). The reading and grouping calls may besides hold no array of over 64 bytes; those of the group "lists" mark
the rows of a list in one larger array. `LIMITS` names the group's constant in include/blorb.h, which the stack of its calls may not exceed.
"""
import re

CALLS = [
    ("reading", "blorb_version", "capi::blorb_version"),
    ("reading", "blorb_sentence", None),
    ("reading", "blorb_read", "reader::read"),
    ("reading", "blorb_entry", "reader::entry"),
    ("reading", "blorb_lookup", "reader::lookup"),
    ("reading", None, "reader::data"),
    ("reading", None, "reader::inspect"),
    ("reading", "blorb_aiff_length", "aiff::length"),
    ("reading", "blorb_table_check", "table::check"),
    ("reading", "blorb_table_search", "table::search"),
    ("reading", "blorb_columns_check", "table::columns_check"),
    ("reading", "blorb_columns_search", "table::columns_search"),
    ("lists", "blorb_scaled", "scaling::scaled"),
    ("lists", "blorb_text", "descriptions::describe"),
    ("lists", None, "descriptions::text"),
    ("lists", "blorb_text_of", "descriptions::tell"),
    ("lists", None, "descriptions::told_text"),
    ("lists", "blorb_texts_write", "describing::write"),
    ("building", "blorb_table_build", "table::build"),
    ("building", "blorb_table_to_columns", "table::to_columns"),
    ("building", "blorb_table_to_rows", "table::to_rows"),
    ("grouping", "blorb_forms_list", "groups::list"),
    ("grouping", "blorb_forms_pick", "groups::pick"),
    ("grouping", None, "groups::picked"),
    ("editing", "blorb_blank", "editor::blank"),
    ("editing", "blorb_add", "editor::add"),
    ("editing", "blorb_replace", "editor::replace"),
    ("editing", "blorb_remove", "editor::remove"),
    ("editing", "blorb_link", "editor::link"),
    ("editing", "blorb_undo", "editor::undo"),
]
LIMITS = {"reading": "BLORB_STACK_READING", "building": "BLORB_STACK_READING", "grouping": "BLORB_STACK_GROUPS", "lists": "BLORB_STACK_LISTS",
          "editing": "BLORB_STACK_EDITING"}
SMALL = ("reading", "grouping")
# Of the reading and grouping calls without a function in C those that the archive must have all the same, for its code to be looked at: every edit runs it.
KEPT = ("reader::inspect",)
MOST_ARRAY = 64           # bytes of an array that a call of these groups may hold
NESTED = frozenset({"groups::readers::form_in", "groups::readers::members_in"})
LEVELS = 16
# Bytes of arrays that a call may hold at once, if the compiler left all of them in.
MOST_IN_SOURCE = {"reading": 4096, "building": 4096, "grouping": 4096, "lists": 7680, "editing": 4096}


def limits_of(header):
    """The constants of the header's text, by group."""
    found = {name: int(value) for name, value in re.findall(r"\b(BLORB_STACK_\w+) = (\d+)", header)}
    return {group: found[name] for group, name in LIMITS.items()}


def groups_of_c():
    """The group of each C function."""
    return {c: group for group, c, _ in CALLS if c is not None}
