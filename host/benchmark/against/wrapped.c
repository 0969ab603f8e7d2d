/* Compiled once for each archive: NAME is now, before or again; PROFILE tells whether its calls take a profile, LINKS whether it has a link. */
#include "wrapped.h"

#define JOINED(a, b) a##_##b
#define JOIN(a, b) JOINED(a, b)
#define OURS(call) JOIN(NAME, call)
#define THEIRS(call) JOIN(NAME, JOIN(blorb, call))

#if PROFILE
#define TYPED_PROFILE , uint32_t
#define GIVEN_PROFILE , profile
#define PLAIN_PROFILE , BLORB_PLAIN
#else
#define TYPED_PROFILE
#define GIVEN_PROFILE
#define PLAIN_PROFILE
#endif

blorb_read_answer THEIRS(read)(const uint8_t *, size_t TYPED_PROFILE);
blorb_lookup_answer THEIRS(lookup)(const uint8_t *, size_t TYPED_PROFILE, const char *, uint32_t);
blorb_edit_answer THEIRS(add)(uint8_t *, size_t, size_t, uint8_t *, size_t, size_t TYPED_PROFILE, const char *, uint32_t, const char *, const uint8_t *,
                              size_t);
blorb_edit_answer THEIRS(replace)(uint8_t *, size_t, size_t, uint8_t *, size_t, size_t TYPED_PROFILE, const char *, uint32_t, const char *,
                                  const uint8_t *, size_t);
blorb_edit_answer THEIRS(remove)(uint8_t *, size_t, size_t, uint8_t *, size_t, size_t TYPED_PROFILE, const char *, uint32_t);
blorb_edit_answer THEIRS(undo)(uint8_t *, size_t, size_t, const uint8_t *, size_t, size_t TYPED_PROFILE);
blorb_build_answer THEIRS(table_build)(const uint8_t *, size_t TYPED_PROFILE, uint32_t *, size_t);
blorb_check_answer THEIRS(table_check)(const uint8_t *, size_t TYPED_PROFILE, const uint32_t *, size_t);
blorb_search_answer THEIRS(table_search)(const uint32_t *, size_t, const char *, uint32_t);

blorb_read_answer OURS(read)(const uint8_t *file, size_t size, uint32_t profile)
{
    (void)profile;
    return THEIRS(read)(file, size GIVEN_PROFILE);
}

blorb_lookup_answer OURS(lookup)(const uint8_t *file, size_t size, uint32_t profile, const char *usage, uint32_t number)
{
    (void)profile;
    return THEIRS(lookup)(file, size GIVEN_PROFILE, usage, number);
}

blorb_edit_answer OURS(add)(uint8_t *file, size_t size, size_t length, uint8_t *journal, size_t room, size_t used, uint32_t profile, const char *usage,
                            uint32_t number, const char *type, const uint8_t *data, size_t bytes)
{
    (void)profile;
    return THEIRS(add)(file, size, length, journal, room, used GIVEN_PROFILE, usage, number, type, data, bytes);
}

blorb_edit_answer OURS(replace)(uint8_t *file, size_t size, size_t length, uint8_t *journal, size_t room, size_t used, uint32_t profile,
                                const char *usage, uint32_t number, const char *type, const uint8_t *data, size_t bytes)
{
    (void)profile;
    return THEIRS(replace)(file, size, length, journal, room, used GIVEN_PROFILE, usage, number, type, data, bytes);
}

blorb_edit_answer OURS(remove)(uint8_t *file, size_t size, size_t length, uint8_t *journal, size_t room, size_t used, uint32_t profile,
                               const char *usage, uint32_t number)
{
    (void)profile;
    return THEIRS(remove)(file, size, length, journal, room, used GIVEN_PROFILE, usage, number);
}

blorb_edit_answer OURS(undo)(uint8_t *file, size_t size, size_t length, const uint8_t *journal, size_t room, size_t used, uint32_t profile)
{
    (void)profile;
    return THEIRS(undo)(file, size, length, journal, room, used GIVEN_PROFILE);
}

#if LINKS
blorb_edit_answer THEIRS(link)(uint8_t *, size_t, size_t, uint8_t *, size_t, size_t, uint32_t, const char *, uint32_t, const char *, uint32_t);
#endif

blorb_edit_answer OURS(link)(uint8_t *file, size_t size, size_t length, uint8_t *journal, size_t room, size_t used, uint32_t profile, const char *usage,
                             uint32_t number, const char *alias, uint32_t chosen)
{
#if LINKS
    return THEIRS(link)(file, size, length, journal, room, used, profile, usage, number, alias, chosen);
#else
    (void)file, (void)size, (void)journal, (void)room, (void)profile, (void)usage, (void)number, (void)alias, (void)chosen;
    return (blorb_edit_answer){.refusal = BLORB_NOT_THERE, .length = length, .used = used};
#endif
}

blorb_build_answer OURS(build)(const uint8_t *file, size_t size, uint32_t *table, size_t numbers)
{
    return THEIRS(table_build)(file, size PLAIN_PROFILE, table, numbers);
}

blorb_check_answer OURS(check)(const uint8_t *file, size_t size, const uint32_t *table, size_t numbers)
{
    return THEIRS(table_check)(file, size PLAIN_PROFILE, table, numbers);
}

blorb_search_answer OURS(search)(const uint32_t *table, size_t numbers, const char *usage, uint32_t number)
{
    return THEIRS(table_search)(table, numbers, usage, number);
}
