/* SPDX-License-Identifier: Apache-2.0 OR MIT */
#include "model.h"

#include <ctype.h>
#include <inttypes.h>
#include <stdarg.h>
#include <stdio.h>
#include <stdlib.h>
#include <string.h>
#include <strings.h>

bool auto_is_typed;

/* The project in whose words Kconfigs, configurations and sources are read: that of the command which runs. */
static enum { LINUX, U_BOOT, BUSYBOX, COREBOOT } dialect;

/* The end of the path of the header of all symbols, which the command that runs was given; NULL where it is the usual one. */
static const Bytes *header_suffix;

/* Where the compiler ran that made what is recorded, and the name that the tree has there, as the command that runs was given them. */
static struct {
    bool is_named;
    Bytes directory, tree;
} elsewhere;

/* Memory and texts */

typedef struct Block {
    struct Block *next;
    size_t used, room;
    max_align_t bytes[];
} Block;

static Block *blocks;

void *keep(size_t size)
{
    size = (size + 15) & ~(size_t)15;
    if (!blocks || blocks->room - blocks->used < size) {
        size_t room = size > 1 << 20 ? size : 1 << 20;
        Block *block = malloc(sizeof *block + room);
        if (!block) {
            fputs("model: no memory\n", stderr);
            exit(2);
        }
        block->next = blocks;
        block->used = 0;
        block->room = room;
        blocks = block;
    }
    void *kept = (char *)blocks->bytes + blocks->used;
    blocks->used += size;
    return kept;
}

void forget_all(void)
{
    while (blocks && blocks->next) {
        Block *next = blocks->next;
        free(blocks);
        blocks = next;
    }
    if (blocks)
        blocks->used = 0;
}

Bytes bytes_of(const char *text)
{
    return (Bytes){text, strlen(text)};
}

Bytes copy_of(Bytes bytes)
{
    char *copy = keep(bytes.length + 1);
    if (bytes.length)
        memcpy(copy, bytes.at, bytes.length);
    copy[bytes.length] = '\0';
    return (Bytes){copy, bytes.length};
}

bool same(Bytes a, Bytes b)
{
    return a.length == b.length && (a.length == 0 || memcmp(a.at, b.at, a.length) == 0);
}

bool is_text(Bytes a, const char *text)
{
    return same(a, bytes_of(text));
}

static int compare(Bytes a, Bytes b)
{
    size_t shorter = a.length < b.length ? a.length : b.length;
    int order = shorter ? memcmp(a.at, b.at, shorter) : 0;
    return order ? order : (a.length > b.length) - (a.length < b.length);
}

static bool starts(Bytes a, const char *text)
{
    size_t length = strlen(text);
    return a.length >= length && memcmp(a.at, text, length) == 0;
}

static bool ends(Bytes a, const char *text)
{
    size_t length = strlen(text);
    return a.length >= length && memcmp(a.at + a.length - length, text, length) == 0;
}

static Bytes from(Bytes a, size_t place)
{
    return (Bytes){a.at + place, a.length - place};
}

static Bytes upto(Bytes a, size_t place)
{
    return (Bytes){a.at, place};
}

/* The place of the first such byte, or the length. */
static size_t place_of(Bytes a, char byte)
{
    const char *found = a.length ? memchr(a.at, byte, a.length) : NULL;
    return found ? (size_t)(found - a.at) : a.length;
}

void add(Text *text, Bytes bytes)
{
    if (text->room - text->length < bytes.length) {
        size_t room = 2 * (text->length + bytes.length) + 64;
        char *at = keep(room);
        if (text->length)
            memcpy(at, text->at, text->length);
        text->at = at;
        text->room = room;
    }
    if (bytes.length)
        memcpy(text->at + text->length, bytes.at, bytes.length);
    text->length += bytes.length;
}

/* %s is a text without NUL of at most 2,000 bytes; longer ones go by add. */
void add_text(Text *text, const char *format, ...)
{
    char line[4096];
    va_list words;
    va_start(words, format);
    int length = vsnprintf(line, sizeof line, format, words);
    va_end(words);
    add(text, (Bytes){line, (size_t)length});
}

Bytes of_text(const Text *text)
{
    return (Bytes){text->at, text->length};
}

static Bytes joined(const char *before, Bytes middle, const char *after)
{
    Text text = {0};
    add_text(&text, "%s", before);
    add(&text, middle);
    add_text(&text, "%s", after);
    return of_text(&text);
}

/* Room for one item more in a list of `count` items, which moves where it is full. */
static void *with_room(void *items, size_t count, size_t *room, size_t size)
{
    if (count < *room)
        return items;
    *room = 2 * *room + 8;
    void *grown = keep(*room * size);
    if (count)
        memcpy(grown, items, count * size);
    return grown;
}

static const Fault none = {{NULL, 0}};

static bool refused(Fault fault)
{
    return fault.text.length > 0;
}

static Fault fault(const char *format, ...)
{
    char line[2200];
    va_list words;
    va_start(words, format);
    int length = vsnprintf(line, sizeof line, format, words);
    va_end(words);
    return (Fault){copy_of((Bytes){line, (size_t)length})};
}

static Fault fault_of(const char *name, Bytes place)
{
    Text text = {0};
    add_text(&text, "%s ", name);
    add(&text, place);
    return (Fault){of_text(&text)};
}

/* Names, lines, decimals */

static bool is_word_byte(char byte)
{
    return (byte >= 'a' && byte <= 'z') || (byte >= 'A' && byte <= 'Z') || (byte >= '0' && byte <= '9') || byte == '_';
}

static bool is_name(Bytes text)
{
    for (size_t i = 0; i < text.length; i++)
        if (!is_word_byte(text.at[i]))
            return false;
    return text.length >= 1 && text.length <= 128;
}

static bool is_path(Bytes text)
{
    for (size_t i = 0; i < text.length; i++) {
        char byte = text.at[i];
        if (byte < 0x21 || byte > 0x7e || byte == '$' || byte == '#' || byte == '\\')
            return false;
    }
    return text.length >= 1 && text.length <= 1024 && text.at[text.length - 1] != ':';
}

static bool is_target(Bytes text)
{
    return is_path(text) && text.at[text.length - 1] != '/';
}

static bool is_command(Bytes text)
{
    return place_of(text, '\n') == text.length && place_of(text, '\r') == text.length && place_of(text, '\0') == text.length;
}

typedef struct {
    Bytes rest, line;
    uint64_t number;
    bool is_ended;
} Lines;

static Lines lines_of(Bytes text)
{
    return (Lines){.rest = text};
}

/* The next line that ends at LF, with its CR. */
static bool next_plain_line(Lines *lines)
{
    if (lines->rest.length == 0)
        return false;
    size_t length = place_of(lines->rest, '\n');
    lines->is_ended = length < lines->rest.length;
    lines->line = upto(lines->rest, length);
    lines->rest = from(lines->rest, length + lines->is_ended);
    lines->number++;
    return true;
}

/* The next line that ends at LF or at CR LF. */
static bool next_line(Lines *lines)
{
    if (!next_plain_line(lines))
        return false;
    if (lines->is_ended && ends(lines->line, "\r"))
        lines->line.length--;
    return true;
}

static bool read_decimal(Bytes text, uint64_t *number)
{
    if (text.length == 0 || (text.at[0] == '0' && text.length > 1))
        return false;
    *number = 0;
    for (size_t i = 0; i < text.length; i++) {
        if (text.at[i] < '0' || text.at[i] > '9')
            return false;
        uint64_t digit = (uint64_t)(text.at[i] - '0');
        if (*number > (UINT64_MAX - digit) / 10)
            return false;
        *number = 10 * *number + digit;
    }
    return true;
}

/* Kinds and values */

typedef enum { BOOL, TRISTATE, STRING, INT, HEX, RAW, FLAG, NO_KIND } Kind;

/* The words of auto.conf; those of a Kconfig are the ones up to HEX. */
static const char *const kind_words[] = {"bool", "tristate", "string", "int", "hex", "raw", "flag"};

/* The kind that a word of a Kconfig declares. */
static Kind declared_kind(Kind word)
{
    if (word == STRING && (dialect == U_BOOT || dialect == BUSYBOX))
        return RAW;
    return word == BOOL && dialect == BUSYBOX ? FLAG : word;
}

static bool is_int(Bytes text)
{
    if (starts(text, "-"))
        text = from(text, 1);
    for (size_t i = 0; i < text.length; i++)
        if (text.at[i] < '0' || text.at[i] > '9')
            return false;
    return text.length == 1 || (text.length > 1 && text.at[0] != '0');
}

static bool is_hex(Bytes text)
{
    if (starts(text, "0x") || starts(text, "0X"))
        text = from(text, 2);
    for (size_t i = 0; i < text.length; i++)
        if (!strchr("0123456789abcdefABCDEF", text.at[i]) || !text.at[i])
            return false;
    return text.length > 0;
}

/* The text of a written value, if it is one of this kind. */
static bool read_value(Kind kind, Bytes written, Bytes *text)
{
    *text = written;
    switch (kind) {
    case BOOL:
    case FLAG:
        return is_text(written, "y") || is_text(written, "n");
    case TRISTATE:
        return is_text(written, "y") || is_text(written, "m") || is_text(written, "n");
    case INT:
        return is_int(written);
    case HEX:
        return is_hex(written);
    default:
        break;
    }
    Text plain = {0};
    if (written.length < 2 || written.at[0] != '"' || !is_command(written))
        return false;
    if (kind == RAW)
        return ends(written, "\"");
    size_t i = 1;
    for (; i < written.length && written.at[i] != '"'; i++) {
        if (written.at[i] == '\\') {
            i++;
            if (i == written.length || (written.at[i] != '"' && written.at[i] != '\\'))
                return false;
        }
        add(&plain, (Bytes){written.at + i, 1});
    }
    *text = of_text(&plain);
    return i == written.length - 1;
}

static bool is_off(Kind kind, Bytes text)
{
    return (kind == BOOL || kind == FLAG || kind == TRISTATE) && is_text(text, "n");
}

/* Kconfig */

typedef struct {
    Bytes name;
    Kind kind;
    Bytes text; /* of a setting; set where is_set */
    bool is_set;
} Symbol;

typedef struct {
    Symbol *symbols;
    size_t count, room;
    Bytes title;
} Symbols;

static Symbol *symbol_named(const Symbols *symbols, Bytes name)
{
    for (size_t i = 0; i < symbols->count; i++)
        if (same(symbols->symbols[i].name, name))
            return &symbols->symbols[i];
    return NULL;
}

static void declare(Symbols *symbols, Bytes name, Kind kind)
{
    symbols->symbols = with_room(symbols->symbols, symbols->count, &symbols->room, sizeof *symbols->symbols);
    symbols->symbols[symbols->count++] = (Symbol){.name = name, .kind = kind};
}

static size_t blanks_of(Bytes text)
{
    size_t i = 0;
    while (i < text.length && (text.at[i] == ' ' || text.at[i] == '\t'))
        i++;
    return i;
}

static size_t word_length(Bytes text)
{
    size_t i = 0;
    while (i < text.length && text.at[i] != ' ' && text.at[i] != '\t')
        i++;
    return i;
}

static bool is_blank(Bytes text)
{
    return blanks_of(text) == text.length;
}

/* `"`, bytes, `"`, blanks. In a prompt a `\` takes the next byte along, and no other `"` stands. */
static bool is_prompt(Bytes text)
{
    if (!starts(text, "\""))
        return false;
    for (size_t i = 1; i < text.length; i++) {
        if (text.at[i] == '\\')
            i++;
        else if (text.at[i] == '"')
            return is_blank(from(text, i + 1));
    }
    return false;
}

typedef enum { EMPTY, TITLE, ENTRY, KIND, FORMLESS } Form;

/* The form of a line; of a title and an entry its word, of a kind line the kind. */
static Form form_of(Bytes line, Bytes *word, Kind *kind)
{
    Bytes said = from(line, blanks_of(line));
    bool is_indented = said.length < line.length;
    if (said.length == 0 || said.at[0] == '#')
        return EMPTY;
    Bytes first = upto(said, word_length(said));
    Bytes after = from(said, first.length);
    Bytes rest = from(after, blanks_of(after));
    if (is_text(first, "mainmenu")) {
        while (rest.length && (ends(rest, " ") || ends(rest, "\t")))
            rest.length--;
        bool is_title = !is_indented && rest.length >= 2 && rest.at[0] == '"' && ends(rest, "\"");
        *word = is_title ? (Bytes){rest.at + 1, rest.length - 2} : (Bytes){NULL, 0};
        return TITLE;
    }
    if (!is_indented && (is_text(first, "config") || is_text(first, "menuconfig"))) {
        *word = upto(rest, word_length(rest));
        return word->length && is_blank(from(rest, word->length)) ? ENTRY : FORMLESS;
    }
    for (Kind word_kind = BOOL; word_kind <= HEX; word_kind++)
        if (is_text(first, kind_words[word_kind])) {
            *kind = declared_kind(word_kind);
            return rest.length == 0 || is_prompt(rest) ? KIND : FORMLESS;
        }
    if (is_text(first, "def_bool") || is_text(first, "def_tristate")) {
        *kind = is_text(first, "def_bool") ? declared_kind(BOOL) : TRISTATE;
        bool is_value = rest.length && strchr("ymn", rest.at[0]) && rest.at[0] && is_blank(from(rest, 1));
        return is_value ? KIND : FORMLESS;
    }
    return FORMLESS;
}

static bool is_title(Bytes text)
{
    for (size_t i = 0; i < text.length; i++) {
        unsigned char byte = (unsigned char)text.at[i];
        if (byte < 0x20 || byte == 0x7f || byte == '"' || byte == '\\')
            return false;
        if (byte == '*' && i + 1 < text.length && text.at[i + 1] == '/')
            return false;
    }
    return text.length >= 1 && text.length <= 256;
}

/* Whether the line after an entry leaves it without a kind. */
static bool leaves_untyped(Lines lines)
{
    Bytes word;
    Kind kind;
    while (next_line(&lines)) {
        Form form = form_of(lines.line, &word, &kind);
        if (form != EMPTY)
            return form == ENTRY || form == TITLE;
    }
    return true;
}

static Fault read_kconfig(Bytes text, Symbols *symbols)
{
    *symbols = (Symbols){.title = bytes_of("Main menu")};
    if (text.length > MAX_BYTES)
        return fault("9 TooLarge");
    Lines lines = lines_of(text);
    Bytes word = {NULL, 0}, entry = {NULL, 0};
    Kind kind;
    bool has_title = false, has_entry = false, is_behind_entry = false;
    while (next_line(&lines)) {
        Form form = form_of(lines.line, &word, &kind);
        if (form == EMPTY)
            continue;
        if (form == FORMLESS || (form == KIND && !is_behind_entry))
            return fault("1 NotBare line %" PRIu64, lines.number);
        if (form == TITLE) {
            if (has_title || has_entry || !is_title(word))
                return fault("6 BadTitle line %" PRIu64, lines.number);
            symbols->title = word;
            has_title = true;
        } else if (form == ENTRY) {
            if (!is_name(word))
                return fault("2 BadName line %" PRIu64, lines.number);
            if (ends(word, "_MODULE") && dialect != BUSYBOX)
                return fault("3 ModuleName line %" PRIu64, lines.number);
            if (leaves_untyped(lines))
                return fault("4 NoType line %" PRIu64, lines.number);
            has_entry = true;
            entry = word;
        } else {
            if (ends(entry, "_MODULE") && kind != FLAG)
                return fault("3 ModuleName line %" PRIu64, lines.number);
            Symbol *earlier = symbol_named(symbols, entry);
            if (earlier && earlier->kind != kind)
                return fault("5 TypeClash line %" PRIu64, lines.number);
            if (!earlier)
                declare(symbols, entry, kind);
        }
        is_behind_entry = form == ENTRY;
    }
    return none;
}

/* .config */

/* `CONFIG_NAME=value`, up to the first `=`. */
static bool split_statement(Bytes line, Bytes *name, Bytes *value)
{
    size_t place = place_of(line, '=');
    if (place == line.length || place < 7 || !starts(line, "CONFIG_"))
        return false;
    *name = (Bytes){line.at + 7, place - 7};
    *value = from(line, place + 1);
    return is_name(*name);
}

static bool split_unset(Bytes line, Bytes *name)
{
    if (!starts(line, "# CONFIG_") || !ends(line, " is not set") || line.length < 20)
        return false;
    *name = (Bytes){line.at + 9, line.length - 20};
    return is_name(*name);
}

/* A line `unknown NAME` for each line about a name that isn't declared. */
static Fault read_dotconfig(Bytes text, Symbols *symbols, uint64_t *unknown, Text *unknown_lines)
{
    *unknown = 0;
    *unknown_lines = (Text){0};
    if (text.length > MAX_BYTES)
        return fault("9 TooLarge");
    Lines lines = lines_of(text);
    Bytes name, value;
    while (next_line(&lines)) {
        bool is_value = split_statement(lines.line, &name, &value);
        if (!is_value && !split_unset(lines.line, &name)) {
            if (lines.line.length && lines.line.at[0] != '#')
                return fault("7 NotAConfigLine line %" PRIu64, lines.number);
            continue;
        }
        Symbol *symbol = symbol_named(symbols, name);
        if (!symbol) {
            ++*unknown;
            add(unknown_lines, bytes_of("unknown "));
            add(unknown_lines, name);
            add(unknown_lines, bytes_of("\n"));
            continue;
        }
        symbol->is_set = is_value;
        if (!is_value)
            continue;
        if (!read_value(symbol->kind, value, &symbol->text))
            return fault("8 BadValue line %" PRIu64, lines.number);
        symbol->is_set = !is_off(symbol->kind, symbol->text);
    }
    return none;
}

static int by_name(const void *a, const void *b)
{
    return compare(((const Symbol *)a)->name, ((const Symbol *)b)->name);
}

/* The settings, in rising order of the names. */
static Symbols settings_of(const Symbols *symbols)
{
    Symbols settings = {.title = symbols->title};
    for (size_t i = 0; i < symbols->count; i++)
        if (symbols->symbols[i].is_set) {
            declare(&settings, symbols->symbols[i].name, symbols->symbols[i].kind);
            settings.symbols[settings.count - 1].text = symbols->symbols[i].text;
        }
    if (settings.count)
        qsort(settings.symbols, settings.count, sizeof *settings.symbols, by_name);
    return settings;
}

/* auto.conf and the header */

typedef struct {
    Symbols entries; /* kind: TRISTATE for a bool or tristate; NO_KIND where it isn't known */
    uint64_t generation;
} Old;

static Kind class_of(Kind kind)
{
    return kind == BOOL ? TRISTATE : kind;
}

/* Whether a `#type ` line is of its form, with the name and the kind that it tells. */
static bool split_type(Bytes line, Bytes *name, Kind *kind)
{
    Bytes rest = from(line, strlen("#type "));
    size_t place = place_of(rest, ' ');
    if (place == rest.length)
        return false;
    *name = upto(rest, place);
    for (*kind = STRING; *kind < NO_KIND; (*kind)++)
        if (is_text(from(rest, place + 1), kind_words[*kind]))
            return is_name(*name);
    return false;
}

/* Whether the next line is an entry of this name. */
static bool is_followed_by(Lines lines, Bytes name)
{
    Bytes found, text;
    return next_line(&lines) && split_statement(lines.line, &found, &text) && same(found, name);
}

static Fault read_auto(Bytes text, Old *old)
{
    *old = (Old){.generation = 0};
    if (text.length > MAX_BYTES)
        return fault("9 TooLarge");
    Lines lines = lines_of(text);
    Bytes name, value, typed_name;
    Kind kind, told = NO_KIND;
    bool is_typed = false, has_entry = false;
    while (next_line(&lines)) {
        Kind next_told = is_typed ? TRISTATE : NO_KIND;
        if (split_statement(lines.line, &name, &value)) {
            Symbol *entry = symbol_named(&old->entries, name);
            if (!entry) {
                declare(&old->entries, name, NO_KIND);
                entry = &old->entries.symbols[old->entries.count - 1];
            }
            entry->text = value;
            entry->kind = told;
        } else if (starts(lines.line, "#generation ")) {
            if (!lines.is_ended || !read_decimal(from(lines.line, strlen("#generation ")), &old->generation))
                return fault("11 BadAuto line %" PRIu64, lines.number);
        } else if (is_typed && starts(lines.line, "#type ")) {
            if (!split_type(lines.line, &typed_name, &kind) || !is_followed_by(lines, typed_name))
                return fault("11 BadAuto line %" PRIu64, lines.number);
            next_told = kind;
        } else if (auto_is_typed && !has_entry && is_text(lines.line, "#typed")) {
            is_typed = true;
            next_told = TRISTATE;
        } else if (lines.line.length && lines.line.at[0] != '#') {
            return fault("11 BadAuto line %" PRIu64, lines.number);
        }
        has_entry = has_entry || starts(lines.line, "CONFIG_");
        told = next_told;
    }
    return none;
}

static Bytes auto_text(const Symbols *settings, uint64_t generation)
{
    Text text = {0};
    add_text(&text, "#\n# Automatically generated file; DO NOT EDIT.\n# ");
    add(&text, settings->title);
    add_text(&text, "\n#\n%s", auto_is_typed ? "#typed\n" : "");
    for (size_t i = 0; i < settings->count; i++) {
        const Symbol *setting = &settings->symbols[i];
        if (auto_is_typed && class_of(setting->kind) != TRISTATE) {
            add_text(&text, "#type ");
            add(&text, setting->name);
            add_text(&text, " %s\n", kind_words[setting->kind]);
        }
        add_text(&text, "CONFIG_");
        add(&text, setting->name);
        add_text(&text, "=");
        add(&text, setting->text);
        add_text(&text, "\n");
    }
    add_text(&text, "#generation %" PRIu64 "\n", generation);
    return of_text(&text);
}

static void add_quoted(Text *text, Bytes bytes)
{
    add_text(text, "\"");
    for (size_t i = 0; i < bytes.length; i++) {
        if (bytes.at[i] == '"' || bytes.at[i] == '\\')
            add_text(text, "\\");
        add(text, (Bytes){bytes.at + i, 1});
    }
    add_text(text, "\"");
}

/* The line of the header that defines a setting, without its end. */
static void add_definition(Text *text, const Symbol *setting)
{
    bool is_switch = class_of(setting->kind) == TRISTATE || setting->kind == FLAG;
    add_text(text, "#define %s_", setting->kind == FLAG ? "ENABLE" : "CONFIG");
    add(text, setting->name);
    add_text(text, is_switch && is_text(setting->text, "m") ? "_MODULE " : " ");
    if (is_switch)
        add_text(text, "1");
    else if (setting->kind == STRING)
        add_quoted(text, setting->text);
    else {
        bool has_prefix = starts(setting->text, "0x") || starts(setting->text, "0X");
        add_text(text, setting->kind == HEX && !has_prefix ? "0x" : "");
        add(text, setting->text);
    }
}

static Bytes header_text(const Symbols *settings)
{
    Text text = {0};
    add_text(&text, "/*\n * Automatically generated file; DO NOT EDIT.\n * ");
    add(&text, settings->title);
    add_text(&text, "\n */\n");
    for (size_t i = 0; i < settings->count; i++) {
        add_definition(&text, &settings->symbols[i]);
        add_text(&text, "\n");
    }
    return of_text(&text);
}

/* What conf wrote */

/* Cuts off a beginning, if the text has it. */
static bool cut(Bytes *text, const Text *front)
{
    if (text->length < front->length || memcmp(text->at, front->at, front->length))
        return false;
    *text = from(*text, front->length);
    return true;
}

/* A heading: its lines up to the title, that, and its lines after it. */
static bool cut_heading(Bytes *text, const char *before, Bytes title, const char *after)
{
    Text heading = {0};
    add_text(&heading, "%s", before);
    add(&heading, title);
    add_text(&heading, "%s", after);
    return cut(text, &heading);
}

/* Cuts off both headings, which have one title; that of the header may be the one of an older conf. */
static bool cut_headings(Bytes *entries, Bytes *definitions, Bytes *title)
{
    static const char before[] = "#\n# Automatically generated file; DO NOT EDIT.\n# ";
    if (!starts(*entries, before))
        return false;
    *title = from(*entries, sizeof before - 1);
    *title = upto(*title, place_of(*title, '\n'));
    return is_title(*title) && cut_heading(entries, before, *title, "\n#\n") &&
           (cut_heading(definitions, "/*\n * Automatically generated file; DO NOT EDIT.\n * ", *title, "\n */\n") ||
            cut_heading(definitions, "/*\n *\n * Automatically generated file; DO NOT EDIT.\n * ", *title, "\n *\n */\n"));
}

/* Whether conf has such a setting: a companion is a bool, and an int or hex may have no value. */
static bool is_setting(const Symbol *setting)
{
    Bytes read, text = setting->text;
    if (ends(setting->name, "_MODULE"))
        return setting->kind == BOOL && setting->name.length > strlen("_MODULE") && is_text(text, "y");
    if (setting->kind == STRING)
        return is_command(text);
    if ((setting->kind == INT || setting->kind == HEX) && text.length == 0)
        return true;
    return read_value(setting->kind, text, &read) && !is_off(setting->kind, text);
}

/* The first kind under which the definition is what is written of the value, or NO_KIND. */
static Kind explaining_kind(Bytes name, Bytes value, Bytes definition)
{
    static const Kind in_order[] = {BOOL, TRISTATE, INT, HEX, STRING, RAW};
    for (size_t i = 0; i < sizeof in_order / sizeof *in_order; i++) {
        Symbol setting = {.name = name, .kind = in_order[i], .text = value};
        Text text = {0};
        add_definition(&text, &setting);
        if (is_setting(&setting) && same(of_text(&text), definition))
            return setting.kind;
    }
    return NO_KIND;
}

/* One line of auto.conf and that of the header. */
static Fault read_pair(const Lines *entries, const Lines *definitions, Symbols *symbols)
{
    Bytes name, value;
    if (!entries->is_ended || !split_statement(entries->line, &name, &value))
        return fault("13 NotAnEntry line %" PRIu64, entries->number);
    if (symbol_named(symbols, name))
        return fault("18 Twice line %" PRIu64, entries->number);
    Kind kind = definitions->is_ended ? explaining_kind(name, value, definitions->line) : NO_KIND;
    if (kind == NO_KIND)
        return fault("%s line %" PRIu64, ends(name, "_MODULE") ? "14 ModuleSymbol" : "15 Unexplained", entries->number);
    declare(symbols, name, kind);
    symbols->symbols[symbols->count - 1].text = value;
    symbols->symbols[symbols->count - 1].is_set = true;
    return none;
}

/* Of BusyBox's pair it knows that its headings are others. */
static Fault read_written(Bytes auto_conf, Bytes header, Symbols *symbols)
{
    *symbols = (Symbols){.count = 0};
    if (dialect == BUSYBOX || !cut_headings(&auto_conf, &header, &symbols->title))
        return fault("12 BadHeading");
    Lines entries = lines_of(auto_conf), definitions = lines_of(header);
    entries.number = definitions.number = 4;
    while (next_plain_line(&entries)) {
        if (!next_plain_line(&definitions))
            return fault("16 Undefined line %" PRIu64, entries.number);
        Fault found = read_pair(&entries, &definitions, symbols);
        if (refused(found))
            return found;
    }
    return next_plain_line(&definitions) ? fault("17 Undeclared line %" PRIu64, definitions.number) : none;
}

static int by_bytes(const void *a, const void *b)
{
    return compare(*(const Bytes *)a, *(const Bytes *)b);
}

static bool differs(const Symbol *old, const Symbol *new)
{
    if (!old || !new)
        return true;
    bool is_other_kind = auto_is_typed && old->kind != class_of(new->kind);
    return is_other_kind || !same(old->text, new->text);
}

/* Whether there is one that differs from the other. */
static bool is_change(const Symbol *old, const Symbol *new)
{
    return (old || new) && differs(old, new);
}

/* Adds the names whose companions are among these. A flag is no companion. */
static size_t with_bases(const Old *old, const Symbols *settings, Bytes *names, size_t count)
{
    size_t own = count;
    for (size_t i = 0; i < own; i++) {
        const Symbol *was = symbol_named(&old->entries, names[i]), *is = symbol_named(settings, names[i]);
        bool is_companion = (was && was->kind != FLAG) || (is && is->kind != FLAG);
        if (is_companion && ends(names[i], "_MODULE") && names[i].length > strlen("_MODULE"))
            names[count++] = upto(names[i], names[i].length - strlen("_MODULE"));
    }
    return count;
}

/* The names that differ, or whose companions do: rising, each once. */
static size_t changes(const Old *old, const Symbols *settings, Bytes **names)
{
    *names = keep((2 * (old->entries.count + settings->count) + 1) * sizeof **names);
    size_t count = 0;
    for (size_t i = 0; i < old->entries.count; i++) {
        const Symbol *entry = &old->entries.symbols[i];
        if (differs(entry, symbol_named(settings, entry->name)))
            (*names)[count++] = entry->name;
    }
    for (size_t i = 0; i < settings->count; i++)
        if (!symbol_named(&old->entries, settings->symbols[i].name))
            (*names)[count++] = settings->symbols[i].name;
    count = with_bases(old, settings, *names, count);
    qsort(*names, count, sizeof **names, by_bytes);
    size_t once = 0;
    for (size_t i = 0; i < count; i++)
        if (i == 0 || !same((*names)[i], (*names)[once - 1]))
            (*names)[once++] = (*names)[i];
    return once;
}

/* The scan, dependency files, command files */

typedef struct {
    Bytes *names;
    size_t count, room;
} Names;

static bool has_name(const Names *names, Bytes name)
{
    for (size_t i = 0; i < names->count; i++)
        if (same(names->names[i], name))
            return true;
    return false;
}

static void note(Names *names, Bytes name)
{
    names->names = with_room(names->names, names->count, &names->room, sizeof *names->names);
    names->names[names->count++] = name;
}

static void note_once(Names *names, Bytes name)
{
    if (!has_name(names, name))
        note(names, name);
}

static void note_legal(Names *names, Bytes name)
{
    if (is_name(name))
        note_once(names, name);
}

static bool is_separator(char byte)
{
    return byte == ' ' || byte == '\t' || byte == '\\' || byte == '\r' || byte == '\n';
}

/* The word bytes from a place on. */
static Bytes word_at(Bytes text, size_t place)
{
    Bytes word = from(text, place);
    size_t length = 0;
    while (length < word.length && is_word_byte(word.at[length]))
        length++;
    return upto(word, length);
}

/* The name after `CONFIG_`, without one `_MODULE` at its end. */
static void note_in_linux(Names *names, Bytes word)
{
    if (!starts(word, "CONFIG_"))
        return;
    Bytes run = from(word, 7);
    if (ends(run, "_MODULE"))
        run.length -= 7;
    note_legal(names, run);
}

static void note_in_busybox(Names *names, Bytes word)
{
    static const char *const fronts[] = {"CONFIG_", "ENABLE_", "IF_NOT_", "IF_"};
    for (size_t i = 0; i < sizeof fronts / sizeof *fronts; i++)
        if (starts(word, fronts[i]))
            note_legal(names, from(word, strlen(fronts[i])));
}

/* How many arguments of a word name symbols. Such a word is no symbol itself. */
static size_t arguments_of(Bytes word)
{
    if (dialect == COREBOOT)
        return is_text(word, "CONFIG");
    if (dialect != U_BOOT)
        return 0;
    if (is_text(word, "CONFIG_IS_ENABLED") || is_text(word, "CONFIG_VAL"))
        return 1;
    return is_text(word, "CONFIG_IF_ENABLED_INT") ? 2 : 0;
}

/* Where a word begins after a mark that follows here, or the end of the text. */
static size_t argument_after(Bytes text, size_t place, char mark)
{
    while (place < text.length && is_separator(text.at[place]))
        place++;
    if (place == text.length || text.at[place] != mark)
        return text.length;
    place++;
    while (place < text.length && is_separator(text.at[place]))
        place++;
    return place < text.length && is_word_byte(text.at[place]) ? place : text.length;
}

/* An argument with its prefix; and before it, where it ends as the macro of a module, the tristate of that. */
static void note_argument(Names *names, Bytes argument)
{
    if (ends(argument, "_MODULE"))
        note_legal(names, upto(argument, argument.length - strlen("_MODULE")));
    note_legal(names, argument);
}

static const char *prefix_of(Bytes target)
{
    static const char *const prefixes[][2] = {{"spl/", "SPL_"}, {"tpl/", "TPL_"}, {"vpl/", "VPL_"}, {"tools/", "TOOLS_"}};
    for (size_t i = 0; i < sizeof prefixes / sizeof *prefixes; i++)
        if (starts(target, prefixes[i][0]))
            return prefixes[i][1];
    return "";
}

/* The names at the places of a text that weren't noted yet. */
static void scan_by_places(Bytes text, Names *names)
{
    for (size_t i = 0; i < text.length; i++)
        if (starts(from(text, i), "CONFIG_") && (i == 0 || !is_word_byte(text.at[i - 1])))
            note_in_linux(names, word_at(text, i));
}

/* The names of its words that weren't. A word may be the argument of one before it, in U-Boot by the path of the object. */
static void scan_by_words(Bytes text, Bytes target, Names *names)
{
    bool *is_argument = keep(text.length + 1);
    memset(is_argument, 0, text.length + 1);
    for (size_t place = 0; place < text.length;) {
        Bytes word = word_at(text, place);
        size_t arguments = arguments_of(word);
        if (arguments) {
            size_t first = argument_after(text, place + word.length, '(');
            is_argument[first] = true;
            if (arguments == 2 && first < text.length)
                is_argument[argument_after(text, first + word_at(text, first).length, ',')] = true;
        }
        if (is_argument[place])
            note_argument(names, joined(dialect == U_BOOT ? prefix_of(target) : "", word, ""));
        if (dialect == BUSYBOX)
            note_in_busybox(names, word);
        else if (arguments == 0)
            note_in_linux(names, word);
        place += word.length ? word.length : 1;
    }
}

static void scan(Bytes text, Bytes target, Names *names)
{
    if (dialect == LINUX)
        scan_by_places(text, names);
    else
        scan_by_words(text, target, names);
}

typedef enum { SOURCE, LISTED, SCANNED } Role;

typedef struct {
    Bytes path;
    Role role;
} Prerequisite;

typedef struct {
    Prerequisite *all;
    size_t count;
} Prerequisites;

static bool next_token(Bytes *rest, Bytes *token)
{
    while (rest->length && is_separator(rest->at[0]))
        *rest = from(*rest, 1);
    size_t length = 0;
    while (length < rest->length && !is_separator(rest->at[length]))
        length++;
    *token = upto(*rest, length);
    *rest = from(*rest, length);
    return length > 0;
}

static void add_prerequisite(Prerequisites *list, Bytes path, Role role)
{
    for (size_t i = 0; i < list->count; i++)
        if (same(list->all[i].path, path))
            return;
    list->all[list->count++] = (Prerequisite){path, role};
}

/* Whether a path is this one, or ends in it after a slash. */
static bool is_or_is_below(Bytes path, Bytes suffix)
{
    if (path.length <= suffix.length)
        return same(path, suffix);
    size_t place = path.length - suffix.length;
    return path.at[place - 1] == '/' && same(from(path, place), suffix);
}

/* The header that every object depends on. */
static bool is_header(Bytes token)
{
    if (header_suffix)
        return is_or_is_below(token, *header_suffix);
    if (dialect == BUSYBOX)
        return is_or_is_below(token, bytes_of("include/autoconf.h"));
    return ends(token, "include/generated/autoconf.h");
}

static Fault read_depfile(Bytes text, Prerequisites *list)
{
    if (text.length > MAX_BYTES)
        return fault("9 TooLarge");
    *list = (Prerequisites){keep((text.length / 2 + 1) * sizeof(Prerequisite)), 0};
    Bytes rest = text, token;
    uint64_t number = 0;
    bool has_target = false, has_source = false, is_first = false;
    while (next_token(&rest, &token)) {
        number++;
        if (ends(token, ":")) {
            has_target = true;
            is_first = true;
            continue;
        }
        if (!has_target)
            return fault("20 NoTarget");
        if (is_header(token))
            continue;
        if (!is_path(token))
            return fault("21 BadPath token %" PRIu64, number);
        add_prerequisite(list, token, !has_source ? SOURCE : is_first ? SCANNED : LISTED);
        has_source = true;
        is_first = false;
    }
    return has_source ? none : fault("20 NoTarget");
}

typedef struct {
    Bytes target, command, place; /* the last listed file so far, or the source */
    Names names, places;          /* each name, and the place that it stands after */
    bool has_generation;
    uint64_t generation;
} CommandFile;

/* `before`, bytes, `after`: the bytes between. */
static bool between(Bytes line, const char *before, const char *after, Bytes *middle)
{
    size_t first = strlen(before), last = strlen(after);
    if (line.length < first + last || !starts(line, before) || !ends(line, after))
        return false;
    *middle = (Bytes){line.at + first, line.length - first - last};
    return true;
}

static bool is_line(Bytes line, const char *before, Bytes target, const char *after)
{
    Bytes middle;
    return between(line, before, after, &middle) && same(middle, target);
}

static bool split_saved(Bytes line, CommandFile *file)
{
    if (!starts(line, "savedcmd_"))
        return false;
    Bytes rest = from(line, strlen("savedcmd_"));
    for (size_t i = 0; i + 4 <= rest.length; i++)
        if (starts(from(rest, i), " := ")) {
            file->target = upto(rest, i);
            file->command = from(rest, i + 4);
            return is_target(file->target) && is_command(file->command);
        }
    return false;
}

/* Whether the line fits at its step of the layout, and the next step. */
static bool fits(Bytes line, int *step, CommandFile *file)
{
    Bytes middle;
    Text source = {0};
    switch (*step) {
    case 0:
        ++*step;
        return split_saved(line, file);
    case 2:
        ++*step;
        add_text(&source, "source_");
        add(&source, file->target);
        add_text(&source, " := ");
        file->place = line.length > source.length ? from(line, source.length) : (Bytes){NULL, 0};
        return is_path(file->place) && memcmp(line.at, source.at, source.length) == 0;
    case 4:
        ++*step;
        return is_line(line, "deps_", file->target, " := \\");
    case 5:
        if (line.length == 0) {
            ++*step;
            return true;
        }
        if (between(line, "    $(wildcard include/config/", ") \\", &middle) && is_name(middle)) {
            note(&file->names, middle);
            note(&file->places, file->place);
            return true;
        }
        return between(line, "  ", " \\", &file->place) && is_path(file->place);
    case 6:
        ++*step;
        add(&source, file->target);
        add_text(&source, ": $(deps_");
        add(&source, file->target);
        add_text(&source, ")");
        return same(line, of_text(&source));
    case 8:
        ++*step;
        return is_line(line, "$(deps_", file->target, "):");
    default:
        ++*step;
        return line.length == 0;
    }
}

static Fault read_command(Bytes text, CommandFile *file)
{
    *file = (CommandFile){.has_generation = false};
    if (text.length > MAX_BYTES)
        return fault("9 TooLarge");
    Lines lines = lines_of(text);
    int step = 0;
    while (next_plain_line(&lines)) {
        if (step < 9) {
            if (!fits(lines.line, &step, file))
                return fault("23 BadCommandFile line %" PRIu64, lines.number);
        } else if (starts(lines.line, "#generation ")) {
            Bytes number = from(lines.line, strlen("#generation "));
            if (!lines.is_ended || !read_decimal(number, &file->generation))
                return fault("23 BadCommandFile line %" PRIu64, lines.number);
            file->has_generation = true;
        }
    }
    return step < 9 ? fault("23 BadCommandFile line %" PRIu64, lines.number + 1) : none;
}

/* Trees */

/* The path as the system takes it: without what says nothing. */
static Bytes plain_path(Bytes path)
{
    Text plain = {0};
    for (size_t i = 0; i < path.length;) {
        size_t length = place_of(from(path, i), '/');
        Bytes part = {path.at + i, length};
        if (length == 0 && i == 0)
            add_text(&plain, "/");
        else if (length > 0 && !is_text(part, ".")) {
            if (plain.length > 1 || (plain.length == 1 && plain.at[0] != '/'))
                add_text(&plain, "/");
            add(&plain, part);
        }
        i += length + 1;
    }
    return of_text(&plain);
}

static File *file_at(const Tree *tree, Bytes path)
{
    for (size_t i = 0; i < tree->count; i++)
        if (same(tree->files[i].path, path))
            return &tree->files[i];
    return NULL;
}

const File *find(const Tree *tree, Bytes path)
{
    return file_at(tree, plain_path(path));
}

void put(Tree *tree, Bytes path, Bytes bytes)
{
    path = plain_path(path);
    File *file = file_at(tree, path);
    if (!file) {
        tree->files = with_room(tree->files, tree->count, &tree->room, sizeof *tree->files);
        file = &tree->files[tree->count++];
        file->path = copy_of(path);
    }
    file->bytes = bytes;
}

void take_away(Tree *tree, Bytes path)
{
    File *file = file_at(tree, plain_path(path));
    if (file)
        *file = tree->files[--tree->count];
}

Tree copy_of_tree(const Tree *tree)
{
    Tree copy = {0};
    for (size_t i = 0; i < tree->count; i++)
        put(&copy, tree->files[i].path, tree->files[i].bytes);
    return copy;
}

/* Whether a file stands where the path has a directory, or the path is a directory. */
static bool is_no_file(const Tree *tree, Bytes path)
{
    bool asks_folder = ends(path, "/") || ends(path, "/.") || is_text(path, ".");
    path = plain_path(path);
    for (size_t i = 0; i < tree->count; i++) {
        Bytes other = tree->files[i].path;
        if (other.length > path.length && other.at[path.length] == '/' && same(upto(other, path.length), path))
            return true;
        if (other.length < path.length && path.at[other.length] == '/' && same(upto(path, other.length), other))
            return true;
        if (asks_folder && same(other, path))
            return true;
    }
    return is_text(path, "") || is_text(path, "/");
}

/* The bytes of a file, or none. */
static Fault read_file(const Tree *tree, Bytes path, Bytes *bytes, bool *is_there)
{
    *is_there = false;
    if (is_no_file(tree, path))
        return fault("30 Device");
    const File *file = find(tree, path);
    if (!file)
        return none;
    if (file->bytes.length > MAX_BYTES)
        return fault("9 TooLarge");
    *bytes = file->bytes;
    *is_there = true;
    return none;
}

/* The bytes of a file that has to be there. */
static Fault load(const Tree *tree, Bytes path, Bytes *bytes)
{
    bool is_there;
    Fault found = read_file(tree, path, bytes, &is_there);
    return refused(found) || is_there ? found : fault_of("40 MissingFile", path);
}

static Bytes command_path(Bytes target)
{
    size_t base = target.length;
    while (base > 0 && target.at[base - 1] != '/')
        base--;
    Text text = {0};
    add(&text, upto(target, base));
    add_text(&text, ".");
    add(&text, from(target, base));
    add_text(&text, ".cmd");
    return of_text(&text);
}

static const char auto_path[] = "include/config/auto.conf";
static const char header_path[] = "include/generated/autoconf.h";

static Fault read_old(const Tree *tree, Old *old)
{
    Bytes text;
    bool is_there;
    *old = (Old){.generation = 0};
    Fault found = read_file(tree, bytes_of(auto_path), &text, &is_there);
    if (refused(found) || !is_there)
        return found;
    return read_auto(text, old);
}

static Fault last_generation(const Tree *tree, uint64_t *generation)
{
    Old old;
    Fault found = read_old(tree, &old);
    *generation = old.generation;
    return !refused(found) && old.generation == 0 ? fault("41 NeverSynced") : found;
}

static Fault read_stamp(const Tree *tree, Bytes name, uint64_t *number)
{
    Bytes text;
    bool is_there;
    *number = 0;
    Fault found = read_file(tree, joined("include/config/", name, ""), &text, &is_there);
    if (refused(found) || !is_there || text.length == 0)
        return found;
    if (!ends(text, "\n") || !read_decimal(upto(text, text.length - 1), number))
        return fault_of("31 BadStamp", name);
    return none;
}

/* Commands */

typedef struct {
    uint64_t generation, unknown;
    Text unknown_lines;
    Bytes *touched;
    size_t count;
    Symbols settings;
} Plan;

/* The settings of a Kconfig and a .config, or of what conf wrote. */
static Fault plan_of(const Bytes *texts, bool is_written, Plan *plan)
{
    Symbols symbols;
    Fault found = is_written ? read_written(texts[0], texts[1], &symbols) : read_kconfig(texts[0], &symbols);
    plan->unknown = 0;
    plan->unknown_lines = (Text){0};
    if (!refused(found) && !is_written)
        found = read_dotconfig(texts[1], &symbols, &plan->unknown, &plan->unknown_lines);
    if (!refused(found))
        plan->settings = settings_of(&symbols);
    return found;
}

static Fault plan_over(const Old *old, Plan *plan)
{
    if (old->generation == UINT64_MAX)
        return fault("42 GenerationFull");
    plan->generation = old->generation + 1;
    plan->count = changes(old, &plan->settings, &plan->touched);
    return none;
}

static Fault synchronise(Tree *tree, const Bytes *texts, bool is_written, Plan *plan)
{
    Old old;
    Fault found = plan_of(texts, is_written, plan);
    if (!refused(found))
        found = read_old(tree, &old);
    if (!refused(found))
        found = plan_over(&old, plan);
    if (refused(found))
        return found;
    Bytes text = auto_text(&plan->settings, plan->generation);
    if (text.length > MAX_BYTES)
        return fault("9 TooLarge");
    char number[24];
    snprintf(number, sizeof number, "%" PRIu64 "\n", plan->generation);
    for (size_t i = 0; i < plan->count; i++)
        put(tree, joined("include/config/", plan->touched[i], ""), copy_of(bytes_of(number)));
    put(tree, bytes_of(header_path), header_text(&plan->settings));
    put(tree, bytes_of(auto_path), text);
    return none;
}

/* Scans a text, and adds a line for each name that wasn't found before. */
static void list_names(Bytes source, Bytes target, Names *names, Text *text)
{
    size_t first = names->count;
    scan(source, target, names);
    for (; first < names->count; first++)
        add(text, joined("    $(wildcard include/config/", names->names[first], ") \\\n"));
}

/* The lines of the prerequisites and of the names that are found in them. */
static Fault list_prerequisites(const Tree *tree, const Prerequisites *list, Bytes target, Names *names, Text *text)
{
    for (size_t i = 0; i < list->count; i++) {
        Bytes source;
        Fault found = load(tree, list->all[i].path, &source);
        if (refused(found))
            return found;
        if (list->all[i].role == LISTED)
            add(text, joined("  ", list->all[i].path, " \\\n"));
        list_names(source, target, names, text);
    }
    return none;
}

static Fault check_record(Bytes depfile, Bytes target, Bytes command)
{
    if (!is_path(depfile) || !is_target(target))
        return fault("21 BadPath token 0");
    return is_command(command) ? none : fault("22 BadCommand");
}

/* A dependency file by the paths that it has here: of a compiler elsewhere a relative one is one of its directory. */
static Fault load_depfile(const Tree *tree, Bytes path, Bytes *bytes)
{
    Text text = {0};
    Bytes token;
    Fault found = load(tree, path, bytes);
    if (refused(found) || !elsewhere.is_named)
        return found;
    while (next_token(bytes, &token)) {
        if (!ends(token, ":") && !starts(token, "/"))
            add(&text, joined("", elsewhere.directory, "/"));
        add(&text, joined("", token, "\n"));
    }
    *bytes = of_text(&text);
    return found;
}

static Fault read_prerequisites(const Tree *tree, Bytes depfile, Prerequisites *list)
{
    Bytes bytes;
    Fault found = load_depfile(tree, depfile, &bytes);
    return refused(found) ? found : read_depfile(bytes, list);
}

/* The command file up to its last line, and how many names it has: those of the files, and at times those of the command. */
static Fault command_text(const Tree *tree, const Prerequisites *list, Bytes target, Bytes command, bool has_command_names, Text *text, size_t *count)
{
    Names names = {0};
    add(text, joined("savedcmd_", target, " := "));
    add(text, joined("", command, "\n\n"));
    add(text, joined("source_", target, " := "));
    add(text, joined("", list->all[0].path, "\n\n"));
    add(text, joined("deps_", target, " := \\\n"));
    Fault found = list_prerequisites(tree, list, target, &names, text);
    if (has_command_names)
        list_names(command, target, &names, text);
    *count = names.count;
    add(text, joined("\n", target, ": $(deps_"));
    add(text, joined("", target, ")\n\n"));
    add(text, joined("$(deps_", target, "):\n"));
    return found;
}

/* What is asked of a record beside it: what make and the project's own tools look for, a number where there is no auto.conf, and the
   names that the command mentions. */
typedef struct {
    bool has_cmd, is_before_sync, has_command_names;
} RecordOptions;

/* The generation of a record. Nothing but a missing auto.conf is one of before any synchronisation. */
static Fault record_generation(const Tree *tree, RecordOptions options, uint64_t *generation)
{
    Bytes text;
    bool is_there = true;
    *generation = 0;
    Fault found = options.is_before_sync ? read_file(tree, bytes_of(auto_path), &text, &is_there) : none;
    return refused(found) || !is_there ? found : last_generation(tree, generation);
}

/* Behind a record: the command under its other name, and outside of Linux a rule of the stamps that the project's own tools have. */
static void add_cmd(Text *text, Bytes target)
{
    CommandFile file;
    if (refused(read_command(of_text(text), &file)))
        return;
    Names names = file.names;
    add(text, joined("cmd_", target, " := $(savedcmd_"));
    add(text, joined("", target, ")\n"));
    if (dialect == LINUX)
        return;
    add(text, joined("", target, ": \\\n"));
    for (size_t i = 0; i < names.count; i++) {
        add_text(text, "    $(wildcard include/config/");
        for (size_t k = 0; k < names.names[i].length; k++) {
            char c = names.names[i].at[k];
            add_text(text, "%c", c == '_' ? '/' : tolower((unsigned char)c));
        }
        add_text(text, ".h) \\\n");
    }
    add_text(text, "\n");
}

/* Behind that for a make elsewhere: the record by the name that the object has there. */
static void add_elsewhere(Text *text, Bytes target)
{
    CommandFile file;
    Bytes directory = joined("", elsewhere.directory, "/");
    if (refused(read_command(of_text(text), &file)) || target.length < directory.length || memcmp(target.at, directory.at, directory.length) != 0)
        return;
    Names names = file.names;
    Bytes name = {target.at + directory.length, target.length - directory.length};
    add(text, joined("savedcmd_", name, " = $(savedcmd_"));
    add(text, joined("", target, ")\n"));
    add(text, joined("deps_", name, " := \\\n"));
    for (size_t i = 0; i < names.count; i++) {
        add(text, joined("    $(wildcard ", elsewhere.tree, "/include/config/"));
        add(text, joined("", names.names[i], ") \\\n"));
    }
    add(text, joined("    $(deps_", target, ")\n\n"));
    add(text, joined("", name, ": $(deps_"));
    add(text, joined("", name, ")\n\n"));
}

static bool is_no_place(void)
{
    return elsewhere.is_named && (!is_path(elsewhere.directory) || !is_path(elsewhere.tree));
}

static Fault record(Tree *tree, RecordOptions options, const Bytes *words, uint64_t *generation, size_t *count)
{
    Prerequisites list;
    Text text = {0};
    Bytes depfile = words[0], target = words[1], command = words[2];
    Fault found = check_record(depfile, target, command);
    if (!refused(found) && is_no_place())
        found = fault("21 BadPath token 0");
    if (!refused(found))
        found = read_prerequisites(tree, depfile, &list);
    if (!refused(found))
        found = record_generation(tree, options, generation);
    if (!refused(found))
        found = command_text(tree, &list, target, command, options.has_command_names, &text, count);
    if (refused(found))
        return found;
    add_text(&text, "#generation %" PRIu64 "\n", *generation);
    if (options.has_cmd)
        add_cmd(&text, target);
    if (elsewhere.is_named && !options.has_command_names)
        add_elsewhere(&text, target);
    if (text.length > MAX_BYTES)
        return fault("9 TooLarge");
    if (is_no_file(tree, command_path(target)))
        return fault("30 Device");
    put(tree, command_path(target), of_text(&text));
    return none;
}

/* The command file of a target, where there is one. */
static Fault record_of(const Tree *tree, Bytes target, CommandFile *file, bool *is_there)
{
    Bytes text;
    *is_there = false;
    if (!is_target(target))
        return fault("21 BadPath token 0");
    Fault found = read_file(tree, command_path(target), &text, is_there);
    if (!refused(found) && *is_there)
        found = read_command(text, file);
    if (!refused(found) && *is_there && !same(file->target, target))
        found = fault("23 BadCommandFile line 1");
    return found;
}

/* What is asked of an object: `stale`, `why`, or `outdated` with a command; and whether it is answered in JSON. */
typedef struct {
    bool asks_why, is_json;
    const Bytes *command; /* or NULL */
} Question;

typedef enum { FRESH, CHANGED, NO_COMMAND_FILE, NOT_NUMBERED, GENERATION_AHEAD, COMMAND_DIFFERS } Verdict;

static const char *const verdict_words[] = {"fresh", "stale", "no-command-file", "not-numbered", "generation-ahead", "command-differs"};

/* A name that changed since the record, with its stamp and the place that it stands after. */
typedef struct {
    Bytes name, place;
    uint64_t stamp;
} Cause;

/* What is answered of an object: its verdict with the names that changed, or a refusal. */
typedef struct {
    Fault fault;
    Verdict verdict;
    Cause *causes;
    size_t count, room;
} Finding;

/* The names that changed since the record. Where nobody asks why, no stamp is read after the first. */
static Fault find_causes(const Tree *tree, const CommandFile *file, bool asks_why, Finding *finding)
{
    uint64_t stamp;
    for (size_t i = 0; i < file->names.count && (asks_why || finding->count == 0); i++) {
        Fault found = read_stamp(tree, file->names.names[i], &stamp);
        if (refused(found))
            return found;
        if (stamp <= file->generation)
            continue;
        finding->causes = with_room(finding->causes, finding->count, &finding->room, sizeof *finding->causes);
        finding->causes[finding->count++] = (Cause){file->names.names[i], file->places.names[i], stamp};
    }
    finding->verdict = finding->count ? CHANGED : FRESH;
    return none;
}

static Fault find_verdict(const Tree *tree, Bytes target, Question question, Finding *finding)
{
    const Bytes *command = question.command;
    CommandFile file;
    bool is_there;
    uint64_t generation;
    if (is_target(target) && command && !is_command(*command))
        return fault("22 BadCommand");
    Fault found = record_of(tree, target, &file, &is_there);
    finding->verdict = NO_COMMAND_FILE;
    if (refused(found) || !is_there)
        return found;
    finding->verdict = COMMAND_DIFFERS;
    if (command && !same(*command, file.command))
        return none;
    finding->verdict = NOT_NUMBERED;
    if (!file.has_generation)
        return none;
    found = last_generation(tree, &generation);
    finding->verdict = GENERATION_AHEAD;
    if (refused(found) || file.generation > generation)
        return found;
    return find_causes(tree, &file, question.asks_why, finding);
}

static Answer refusal(Fault found)
{
    return (Answer){2, {NULL, 0}, joined("confstamp: ", found.text, "\n"), false};
}

/* The path without the parts that lead nowhere: empty ones and `.`. A slash in front stays. */
static Bytes usual_path(Bytes path)
{
    Text usual = {0};
    bool is_rooted = starts(path, "/");
    for (size_t length;; path = from(path, length + 1)) {
        length = place_of(path, '/');
        Bytes part = upto(path, length);
        if (part.length && !is_text(part, ".")) {
            if (usual.length || is_rooted)
                add(&usual, bytes_of("/"));
            add(&usual, part);
        }
        if (length == path.length)
            return of_text(&usual);
    }
}

static bool is_recorded(const Tree *tree, Bytes target)
{
    bool is_there;
    CommandFile file;
    return !refused(record_of(tree, target, &file, &is_there)) && is_there;
}

/* The line below a target that is not recorded, where it is under another spelling of its path. */
static void add_spelling(const Tree *tree, Bytes target, Text *output)
{
    Bytes usual = usual_path(target);
    if (!same(usual, target) && is_recorded(tree, usual))
        add(output, joined("  recorded as ", usual, "\n"));
}

/* `TARGET fresh`, `TARGET stale REASON`, `TARGET command-differs` or `TARGET refused FAULT`, and below it what `why` says. */
static void add_lines(const Tree *tree, Bytes target, Question question, const Finding *finding, Text *output)
{
    Verdict verdict = finding->verdict;
    bool is_refused = refused(finding->fault);
    add(output, target);
    if (is_refused)
        add(output, joined(" refused ", finding->fault.text, "\n"));
    else if (verdict == CHANGED)
        add(output, joined(" stale ", finding->causes[0].name, "\n"));
    else
        add_text(output, " %s%s\n", verdict == FRESH || verdict == COMMAND_DIFFERS ? "" : "stale ", verdict_words[verdict]);
    if (!question.asks_why)
        return;
    if (is_refused ? is_text(finding->fault.text, "23 BadCommandFile line 1") : verdict == NO_COMMAND_FILE)
        add_spelling(tree, target, output);
    for (size_t i = 0; !is_refused && i < finding->count; i++) {
        add(output, joined("  ", finding->causes[i].name, ""));
        add_text(output, " generation %" PRIu64, finding->causes[i].stamp);
        add(output, joined(" ", finding->causes[i].place, "\n"));
    }
}

/* A text of JSON, of a character for each byte, in UTF-8. */
static void add_string(Text *output, Bytes bytes)
{
    static const char escaped[] = "\"\\\b\f\n\r\t", letters[] = "\"\\bfnrt";

    add_text(output, "\"");
    for (size_t i = 0; i < bytes.length; i++) {
        unsigned char byte = (unsigned char)bytes.at[i];
        const char *found = byte ? strchr(escaped, byte) : NULL;
        if (found)
            add_text(output, "\\%c", letters[found - escaped]);
        else if (byte < 32)
            add_text(output, "\\u%04x", byte);
        else if (byte < 128)
            add_text(output, "%c", byte);
        else
            add_text(output, "%c%c", 0xc0 | (byte >> 6), 0x80 | (byte & 0x3f));
    }
    add_text(output, "\"");
}

/* The object of JSON of an answer, in one line. */
static void add_json(Bytes target, Question question, const Finding *finding, Text *output)
{
    bool is_refused = refused(finding->fault);
    add_text(output, "{\"target\":");
    add_string(output, target);
    add_text(output, ",\"verdict\":\"%s\",\"causes\":[", is_refused ? "refused" : verdict_words[finding->verdict]);
    for (size_t i = 0; !is_refused && i < finding->count; i++) {
        add_text(output, "%s{\"name\":", i ? "," : "");
        add_string(output, finding->causes[i].name);
        if (question.asks_why) {
            add_text(output, ",\"place\":");
            add_string(output, finding->causes[i].place);
            add_text(output, ",\"stamp\":%" PRIu64, finding->causes[i].stamp);
        }
        add_text(output, "}");
    }
    add_text(output, "]");
    if (is_refused) {
        add_text(output, ",\"refused\":");
        add_string(output, finding->fault.text);
    }
    add_text(output, "}\n");
}

/* Tells of a target, and the status that the answers so far come to. Returns whether it is stale. */
static bool answer_target(const Tree *tree, Bytes target, Question question, Text *output, int *status)
{
    Finding finding = {.count = 0};
    finding.fault = find_verdict(tree, target, question, &finding);
    if (question.is_json)
        add_json(target, question, &finding, output);
    else
        add_lines(tree, target, question, &finding, output);
    bool is_refused = refused(finding.fault), is_stale = !is_refused && finding.verdict != FRESH;
    if (is_refused)
        *status = 2;
    else if (is_stale && *status == 0)
        *status = 1;
    return is_stale;
}

static Fault load_all(const Tree *tree, const Bytes *paths, size_t count, Bytes *texts)
{
    for (size_t i = 0; i < count; i++)
        if (!is_path(paths[i]))
            return fault("21 BadPath token 0");
    for (size_t i = 0; i < count; i++) {
        Fault found = load(tree, paths[i], &texts[i]);
        if (refused(found))
            return found;
    }
    return none;
}

static void add_touched(Text *output, const Plan *plan)
{
    for (size_t i = 0; i < plan->count; i++)
        add(output, joined("touch ", plan->touched[i], "\n"));
}

static Answer run_sync(Tree *tree, const Bytes *words, bool is_written)
{
    Bytes texts[2];
    Plan plan;
    Text output = {0};
    Fault found = load_all(tree, words, 2, texts);
    if (!refused(found))
        found = synchronise(tree, texts, is_written, &plan);
    if (refused(found))
        return refusal(found);
    add_text(&output, "generation %" PRIu64 "\n", plan.generation);
    add_touched(&output, &plan);
    add_text(&output, "unknown %" PRIu64 "\n", plan.unknown);
    return (Answer){0, of_text(&output), {NULL, 0}, false};
}

static Answer run_preview(const Tree *tree, const Bytes *words, size_t count, bool is_written)
{
    Bytes texts[3];
    Plan plan;
    Old old = {.generation = 0};
    Text output = {0};
    Fault found = load_all(tree, words, count, texts);
    if (!refused(found))
        found = plan_of(texts, is_written, &plan);
    if (!refused(found) && count == 3)
        found = read_auto(texts[2], &old);
    if (!refused(found))
        found = plan_over(&old, &plan);
    if (refused(found))
        return refusal(found);
    add_touched(&output, &plan);
    add(&output, auto_text(&plan.settings, plan.generation));
    return (Answer){0, of_text(&output), {NULL, 0}, false};
}

/* Words that are no command: a usage text goes to standard error, and the model doesn't know which. */
static Answer no_command(void)
{
    return (Answer){.status = 2, .is_usage = true};
}

/* Takes an option out of the words, and the word after it where it has one. Returns whether it was there. */
static bool take_option(Bytes *words, size_t *count, const char *option, Bytes *after)
{
    size_t taken = after ? 2 : 1;
    for (size_t i = 0; i + taken <= *count; i++)
        if (is_text(words[i], option)) {
            if (after)
                *after = words[i + 1];
            *count -= taken;
            memmove(words + i, words + i + taken, (*count - i) * sizeof *words);
            return true;
        }
    return false;
}

/* Where the compiler ran, by two options. */
static void take_elsewhere(Bytes *words, size_t *count)
{
    elsewhere.tree = bytes_of("");
    elsewhere.is_named = take_option(words, count, "--in", &elsewhere.directory);
    take_option(words, count, "--tree", &elsewhere.tree);
}

static Answer run_fixdep(const Tree *tree, const Bytes *words)
{
    Prerequisites list;
    Text output = {0};
    size_t count;
    Fault found = check_record(words[0], words[1], words[2]);
    if (!refused(found))
        found = read_prerequisites(tree, words[0], &list);
    if (!refused(found))
        found = command_text(tree, &list, words[1], words[2], false, &output, &count);
    return refused(found) ? refusal(found) : (Answer){0, of_text(&output), {NULL, 0}, false};
}

/* What is printed of an object that was recorded. */
static Answer recorded(const char *command_word, Bytes target, uint64_t generation, size_t count)
{
    Text output = {0};
    add_text(&output, "%s ", command_word);
    add(&output, target);
    add_text(&output, " generation %" PRIu64 " names %zu\n", generation, count);
    return (Answer){0, of_text(&output), {NULL, 0}, false};
}

static Answer run_record(Tree *tree, RecordOptions options, const Bytes *words)
{
    uint64_t generation;
    size_t count;
    Fault found = record(tree, options, words, &generation, &count);
    return refused(found) ? refusal(found) : recorded("record", words[1], generation, count);
}

/* Whether a dependency file isn't to be written anew, as it is one of the program's own files. */
static bool is_own_file(Bytes path)
{
    return starts(path, "include/config/") || is_text(path, header_path) || ends(path, ".cmd") || ends(path, ".tmp");
}

/* The rule of a dependency file: its first token, its prerequisites, the stamps of the names. */
static Bytes rule_text(Bytes depfile, const Prerequisites *list, const Names *names)
{
    Text text = {0};
    Bytes rest = depfile, token;
    next_token(&rest, &token);
    add(&text, token);
    for (size_t i = 0; i < list->count; i++)
        add(&text, joined(" \\\n  ", list->all[i].path, ""));
    for (size_t i = 0; i < names->count; i++) {
        add_text(&text, " \\\n  ");
        if (elsewhere.is_named)
            add(&text, joined("", elsewhere.tree, "/"));
        add(&text, joined("include/config/", names->names[i], ""));
    }
    add_text(&text, "\n");
    return of_text(&text);
}

/* The missing ones of these stamps, empty. */
static void make_stamps(Tree *tree, const Names *names)
{
    for (size_t i = 0; i < names->count; i++) {
        Bytes path = joined("include/config/", names->names[i], "");
        if (!find(tree, path))
            put(tree, path, bytes_of(""));
    }
}

/* Behind a record of an object, when the dependency file was read: the stamps of its names, and the rule with them. */
static void write_rule(Tree *tree, Bytes path, Bytes target, Bytes depfile, const Prerequisites *list)
{
    CommandFile file = {0};
    read_command(find(tree, command_path(target))->bytes, &file);
    make_stamps(tree, &file.names);
    put(tree, path, rule_text(depfile, list, &file.names));
}

/* What --strict looks at: the words of a compile, by the table of ks_hidden/specs/Arguments.antt, the header, and the files. The model knows
   words between spaces alone, headers that a `sync` wrote up to their last lines, and plain words in files; and no precompiled header. */

static bool begins_with_one(Bytes word, const char *const *texts)
{
    while (*texts && !starts(word, *texts))
        texts++;
    return *texts;
}

static bool ends_with_one(Bytes word, const char *const *texts)
{
    while (*texts && !ends(word, *texts))
        texts++;
    return *texts;
}

static bool is_one_of(Bytes word, const char *const *texts)
{
    while (*texts && !is_text(word, *texts))
        texts++;
    return *texts;
}

static bool has_text(Bytes word, const char *text)
{
    for (size_t i = 0; i < word.length; i++)
        if (starts(from(word, i), text))
            return true;
    return false;
}

static bool has_one(Bytes word, const char *const *texts)
{
    while (*texts && !has_text(word, *texts))
        texts++;
    return *texts;
}

#define ONE_OF(...) ((const char *const[]){__VA_ARGS__, NULL})

/* What stands where a word stands: something in front of the compiler or the value of that, or an argument, the value of one, a
   language, or an option for a part of the compiler; or a word of a command that makes a text. */
typedef enum { FRONT, FRONT_VALUE, ARGUMENT, VALUE, LANGUAGE, INNER, TEXT, UNKNOWN } Expected;

static Expected after_front(Bytes word)
{
    if (is_one_of(word, ONE_OF("env", "nice", "ccache", "distcc")) || ends_with_one(word, ONE_OF("/env", "/nice", "/ccache", "/distcc")) ||
        begins_with_one(word, ONE_OF("-i", "--unset=", "--adjustment=")))
        return FRONT;
    if (is_one_of(word, ONE_OF("-u", "-n", "-C")))
        return FRONT_VALUE;
    if (begins_with_one(word, ONE_OF("-", "CCACHE_", "GCC_", "CCC_")) || has_text(word, "PATH="))
        return UNKNOWN;
    return has_text(word, "=") ? FRONT : ARGUMENT;
}

static bool takes_value(Bytes word)
{
    static const char *const valued[] = {
        "-D", "-I", "-U", "-o", "-MF", "-MQ", "-MT", "-include", "-imacros", "-isystem", "-iquote", "-idirafter", "-isysroot", "-target", "-arch",
        "--param", NULL,
    };
    return is_one_of(word, valued);
}

static bool is_plain_option(Bytes word)
{
    static const char *const plain[] = {
        "-c", "-MD", "-MMD", "-MP", "-w", "-s", "-p", "-P", "-C", "-CC", "-v", "-pg", "-pipe", "-pthread", "-ansi", "-undef", "-trigraphs",
        "-rdynamic", "--coverage", "-pie", "-no-pie", "-nodefaultlibs", "-nostartfiles", "-nolibc", "-no-canonical-prefixes",
        "-integrated-as", "-no-integrated-as", "-Qunused-arguments", "-EB", "-EL", NULL,
    };
    return is_one_of(word, plain);
}

/* All macros come into what is made, or the line at which one is defined. */
static bool keeps_macros(Bytes word)
{
    if (begins_with_one(word, ONE_OF("-fcoverage-prefix-map=", "-fcoverage-compilation-dir=")))
        return false;
    return begins_with_one(word, ONE_OF("-g3", "-ggdb3", "-gstabs3", "-fcoverage-", "-fdebug-macro"));
}

static bool has_known_front(Bytes word)
{
    static const char *const fronts[] = {
        "-D", "-U", "-I", "-O", "-g", "-W", "-o", "-MF", "-MQ", "-MT", "-isystem", "-iquote", "-idirafter", "-imacros", "-include", "-pedantic",
        "-l", "-L", "-nostd", "-static", "-shared", "-stdlib=", "-rtlib=", "--rtlib=", "-unwindlib=", "--unwindlib=", "-std=", "--std=", "--param=",
        "--sysroot=", "--target=", "--gcc-toolchain=", NULL,
    };
    static const char *const refused_fronts[] = {
        "-I=", "-I$", "-isystem=", "-iquote=", "-idirafter=", "-include-pch", "-Wa,", "-Wp,", NULL,
    };
    return begins_with_one(word, fronts) && !begins_with_one(word, refused_fronts) && !keeps_macros(word);
}

/* Options for the preprocessor and for the assembler, behind which nothing else stands. */
static bool is_known_inside(Bytes word)
{
    static const char *const fronts[] = {"-Wp,-MD,", "-Wp,-MMD,", "-Wp,-D_", "-Wp,-U", NULL};
    for (size_t i = 0; fronts[i]; i++)
        if (starts(word, fronts[i]))
            return !has_one(from(word, strlen(fronts[i])), ONE_OF(",", "@"));
    return begins_with_one(word, ONE_OF("-Wa,--", "-Wa,-W", "-Wa,-m", "-Wa,-M", "-Wa,-n")) && !has_one(from(word, 4), ONE_OF(",", "@", "gstabs"));
}

static bool is_known_flag(Bytes word)
{
    if (!starts(word, "-f") || keeps_macros(word))
        return false;
    static const char *const plain[] = {
        "-fno-", "-fuse-", "-fcoverage-compilation-dir=", "-fcrash-diagnostics-dir=", "-fdebug-compilation-dir=", "-ffile-compilation-dir=",
        "-finput-charset=UTF-8", "-finput-charset=utf-8", "-fprofile-dir=", "-fprofile-generate", "-frandom-seed=", NULL,
    };
    if (begins_with_one(word, plain) || has_text(word, "-prefix-map="))
        return true;
    static const char *const refused[] = {
        "-fauto-profile", "-fbasic-block-sections=", "-fbranch-", "-fembed-offload-", "-finput-charset", "-fmodule", "-fopenmp-host-ir-",
        "-fprebuilt-module", "-fpreprocessed", "-fprofile-remapping-", "-frandomize-layout-seed-file", "-fthinlto-index", "-fxray-", NULL,
    };
    static const char *const parts[] = {
        "profile-use", "instr-use", "sample-use", "ment-use", "plugin", "list", "/", "@", NULL,
    };
    return !begins_with_one(word, refused) && !has_one(word, parts);
}

static bool is_known_machine(Bytes word)
{
    return starts(word, "-m") && !has_one(word, ONE_OF("/", "@", "llvm"));
}

static bool is_known_option(Bytes word)
{
    bool is_language = starts(word, "-x") && !ends(word, "-header");
    return is_plain_option(word) || has_known_front(word) || is_known_inside(word) || is_known_flag(word) || is_known_machine(word) || is_language;
}

static bool is_known_file(Bytes word)
{
    static const char *const endings[] = {
        ".c", ".C", ".i", ".s", ".S", ".m", ".M", ".cc", ".cpp", ".cxx", ".c++", ".cp", ".ii", ".sx", ".mm", ".o", ".a", ".so", NULL,
    };
    return ends_with_one(word, endings) && !begins_with_one(word, ONE_OF("@", "-", "/dev/std", "/dev/fd/", "/proc/"));
}

static Expected after_argument(Bytes word)
{
    if (takes_value(word))
        return VALUE;
    if (is_text(word, "-x"))
        return LANGUAGE;
    if (begins_with_one(word, ONE_OF("-Xa", "-Xc", "-Xp")) || is_text(word, "-mllvm"))
        return INNER;
    return is_known_option(word) || is_known_file(word) ? ARGUMENT : UNKNOWN;
}

/* What stands behind a word of which this was expected. */
static Expected after_word(Expected expected, Bytes word)
{
    static const char *const of_no_text[] = {
        "-dD", "-dI", "-dM", "-dN", "-dU", "-fdirectives-only", "@", NULL,
    };
    static const char *const inner[] = {
        "-D", "-U", "-W", "-O", "-disable-", "-target-", "+", "--32", "--64", "--compress", "--fatal-warnings", "--no", "--warn", NULL,
    };
    bool is_known = true;
    switch (expected) {
    case FRONT:
        return after_front(word);
    case FRONT_VALUE:
        return FRONT;
    case TEXT:
        return begins_with_one(word, of_no_text) || keeps_macros(word) ? UNKNOWN : TEXT;
    case ARGUMENT:
        return after_argument(word);
    case VALUE:
        is_known = !begins_with_one(word, ONE_OF("@", "=", "$"));
        break;
    case LANGUAGE:
        is_known = !ends(word, "-header") && !starts(word, "@");
        break;
    default:
        is_known = is_known_flag(word) || is_known_machine(word) ||
                   (begins_with_one(word, inner) && !has_one(word, ONE_OF("/", "@", "=", ".", ",", "gstabs")));
    }
    return is_known ? ARGUMENT : UNKNOWN;
}

/* The next of the words between spaces. */
static bool next_word(Bytes *rest, Bytes *word)
{
    while (starts(*rest, " "))
        *rest = from(*rest, 1);
    *word = upto(*rest, place_of(*rest, ' '));
    *rest = from(*rest, word->length);
    return word->length > 0;
}

/* The first word that isn't known, of a compile, which has -c, or of a command that makes a text. */
static Fault check_words(Bytes command)
{
    Bytes rest = command, word;
    uint64_t number = 0;
    Expected expected = TEXT;
    while (next_word(&rest, &word))
        expected = is_text(word, "-c") ? FRONT : expected;
    for (rest = command; next_word(&rest, &word);) {
        number++;
        expected = after_word(expected, word);
        if (expected == UNKNOWN || has_one(word, ONE_OF("__has_include", "__has_embed", "__DATE__", "__TIME__", "__TIMESTAMP__")))
            return fault("29 UnknownArgument word %" PRIu64, number);
    }
    return none;
}

/* Whether a line of the header is what a synchronisation writes for an entry of auto.conf. */
static bool is_definition(Bytes line, const Old *old)
{
    for (size_t i = 0; i < old->entries.count; i++) {
        Text text = {0};
        add_definition(&text, &old->entries.symbols[i]);
        if (same(of_text(&text), line))
            return true;
    }
    return false;
}

/* Of a header that a synchronisation wrote, at the most with other definitions behind, or some cut off. */
static Fault check_header(const Tree *tree, Bytes path, Bytes other, const Old *old)
{
    static const char usual[] = "include/generated/autoconf.h", usual_of_busybox[] = "include/autoconf.h";
    Bytes text, spelled = header_suffix ? *header_suffix : bytes_of(dialect == BUSYBOX ? usual_of_busybox : usual);
    size_t count = 0;
    if (!same(path, spelled) && !same(path, other))
        return fault_of("26 OtherHeader", path);
    Fault found = load(tree, path, &text);
    if (refused(found))
        return found;
    Lines lines = lines_of(text);
    while (next_plain_line(&lines)) {
        if (!starts(lines.line, "#define "))
            continue;
        if (!is_definition(lines.line, old))
            return fault_of("25 ForeignLine", path);
        count++;
    }
    return count < old->entries.count ? fault_of("28 MissingLine", path) : none;
}

/* Whether a text has this word: no word byte stands beside it. */
static bool has_word(Bytes text, const char *word)
{
    for (size_t i = 0; i < text.length; i++) {
        size_t end = i + strlen(word);
        if (starts(from(text, i), word) && (i == 0 || !is_word_byte(text.at[i - 1])) && (end == text.length || !is_word_byte(text.at[end])))
            return true;
    }
    return false;
}

/* The same of a directive of the assembler, whose letters are of either case. */
static bool has_directive(Bytes text, const char *name)
{
    size_t length = strlen(name);
    for (size_t i = 0; i + length <= text.length; i++)
        if (strncasecmp(text.at + i, name, length) == 0 && (i + length == text.length || !is_word_byte(text.at[i + length])))
            return true;
    return false;
}

static bool ends_name(char byte)
{
    return byte == ' ' || byte == '\t' || byte == '\v' || byte == '\f' || byte == '\r' || byte == '\n';
}

/* The macro that a line includes by its name, which begins at this place: a letter, word bytes, and then a blank or the line's end. */
static bool is_macro_at(Bytes text, size_t place, Bytes *macro)
{
    *macro = word_at(text, place);
    Bytes behind = from(text, place + macro->length);
    bool has_end = behind.length == 0 || ends_name(behind.at[0]);
    return macro->length > 0 && isalpha((unsigned char)macro->at[0]) && has_end;
}

/* Whether a text has one of the words by which a file may hide what it is made of, plainly, a NUL, or a carriage return that ends a line
   alone. The macros that it includes by their names are noted. */
static bool is_hiding(Bytes text, Names *included)
{
    static const char *const hiding[] = {"__has_include", "__has_embed", "__DATE__", "__TIME__", "__TIMESTAMP__", NULL};
    Bytes macro;
    if (has_directive(text, ".incbin") || has_directive(text, ".include") || has_word(text, "embed"))
        return true;
    for (size_t i = 0; hiding[i]; i++)
        if (has_word(text, hiding[i]))
            return true;
    for (size_t i = 0; i < text.length; i++)
        if (!text.at[i] || (text.at[i] == '\r' && !starts(from(text, i), "\r\n")))
            return true;
    for (size_t i = 0; i + 1 < text.length; i++) {
        Bytes after = from(text, i);
        bool is_word_before = i > 0 && is_word_byte(text.at[i - 1]), is_line = i == 0 || text.at[i - 1] == '\n';
        if (is_word_before && starts(after, "\\\n") && after.length > 2 && is_word_byte(after.at[2]))
            return true;
        if (starts(after, "?\?/\n"))
            return true;
        if (!is_line || !starts(after, "#include ") || after.length <= 9 || !is_word_byte(after.at[9]))
            continue;
        if (!is_macro_at(text, i + 9, &macro))
            return true;
        note_once(included, macro);
    }
    return false;
}

/* Whether the name of one of these macros stands in a text otherwise than behind a word that asks for it, or includes it. */
static bool may_define(Bytes text, const Names *macros)
{
    static const char *const questions[] = {
        "defined(", "defined (", "defined", "ifdef", "ifndef", "include", "include_next", "import", "undef", NULL,
    };
    for (size_t i = 0; i < text.length; i++) {
        Bytes before = upto(text, i);
        if (!is_word_byte(text.at[i]) || (i > 0 && is_word_byte(text.at[i - 1])) || !has_name(macros, word_at(text, i)))
            continue;
        while (before.length > 0 && strchr(" \t\n\f\r", before.at[before.length - 1]) && before.at[before.length - 1])
            before = upto(before, before.length - 1);
        if (!ends_with_one(before, questions))
            return true;
    }
    return false;
}

/* A word of the command that defines one of these macros, or else the first file that may. */
static Fault check_macros(const Tree *tree, const Names *macros, Bytes depfile, Bytes command)
{
    Bytes word, token, text;
    uint64_t number = 0;
    while (next_word(&command, &word)) {
        Bytes next = command, value = from(word, starts(word, "-D") ? 2 : word.length);
        bool is_definition = starts(word, "-D") && (value.length > 0 || next_word(&next, &value));
        number++;
        if (is_definition && (word_at(value, 0).length == 0 || has_name(macros, word_at(value, 0))))
            return fault("29 UnknownArgument word %" PRIu64, number);
    }
    while (next_token(&depfile, &token)) {
        if (ends(token, ":"))
            continue;
        Fault found = load(tree, token, &text);
        if (refused(found))
            return found;
        if (may_define(text, macros))
            return fault_of("24 HiddenInput", token);
    }
    return none;
}

static Fault check_file(const Tree *tree, Bytes path, Names *included)
{
    Bytes text;
    Fault found = load(tree, path, &text);
    return !refused(found) && is_hiding(text, included) ? fault_of("24 HiddenInput", path) : found;
}

/* What an object is made of, in the order of its dependency file. */
static Fault check_files(const Tree *tree, Bytes depfile, Bytes other, Bytes command)
{
    Old old;
    Names included = {0};
    Bytes token, rest = depfile;
    Fault found = read_old(tree, &old);
    while (!refused(found) && next_token(&rest, &token))
        if (!ends(token, ":"))
            found = is_header(token) ? check_header(tree, token, other, &old) : check_file(tree, token, &included);
    return refused(found) || included.count == 0 ? found : check_macros(tree, &included, depfile, command);
}

/* The first tool that is no program, by its first four bytes. */
static Fault check_tools(const Tree *tree, const Names *tools)
{
    for (size_t i = 0; i < tools->count; i++) {
        if (!is_path(tools->names[i]))
            return fault("21 BadPath token 0");
        const File *file = find(tree, tools->names[i]);
        if (!file || !starts(file->bytes, "\177ELF"))
            return fault_of("24 HiddenInput", tools->names[i]);
    }
    return none;
}

/* What is refused of a `depfile --strict`; `other` is the other spelling of the header. */
static Fault check_strictly(const Tree *tree, const Bytes *words, Bytes other, const Names *tools)
{
    Prerequisites list;
    Bytes depfile;
    Fault found = check_words(words[2]);
    if (!refused(found))
        found = check_tools(tree, tools);
    if (!refused(found) && !is_path(words[0]))
        found = fault("21 BadPath token 0");
    if (!refused(found))
        found = load_depfile(tree, words[0], &depfile);
    if (!refused(found))
        found = read_depfile(depfile, &list);
    return refused(found) ? found : check_files(tree, depfile, other, words[2]);
}

static Answer run_depfile(Tree *tree, Bytes *words, size_t count)
{
    static Bytes suffix;
    Prerequisites list;
    Bytes depfile, other;
    uint64_t generation;
    Names tools = {0};
    if (count > 0 && is_text(words[count - 1], "--tools"))
        return no_command();
    for (size_t i = 0; i < count; i++)
        if (is_text(words[i], "--tools")) {
            size_t end = i + 1;
            while (end < count && !starts(words[end], "--"))
                note(&tools, words[end++]);
            memmove(words + i, words + end, (count - end) * sizeof *words);
            count -= end - i;
            break;
        }
    bool has_header = take_option(words, &count, "--header", &suffix), is_strict = take_option(words, &count, "--strict", &other);
    take_elsewhere(words, &count);
    if (count != 3)
        return no_command();
    if (has_header && !is_path(suffix))
        return refusal(fault("21 BadPath token 0"));
    header_suffix = has_header ? &suffix : NULL;
    Fault found = is_strict ? check_strictly(tree, words, other, &tools) : none;
    if (!refused(found) && is_own_file(words[0]))
        found = fault("21 BadPath token 0");
    if (!refused(found))
        found = record(tree, (RecordOptions){.has_command_names = true}, words, &generation, &count);
    if (refused(found))
        return refusal(found);
    load_depfile(tree, words[0], &depfile);
    read_depfile(depfile, &list);
    write_rule(tree, words[0], words[1], depfile, &list);
    return recorded("depfile", words[1], generation, count);
}

/* The targets among the words, and after them the lines of the file that aren't empty. */
static Fault targets_of(const Tree *tree, const Bytes *words, size_t count, const Bytes *path, Names *targets)
{
    Bytes text;
    for (size_t i = 0; i < count; i++)
        note(targets, words[i]);
    if (!path)
        return none;
    Fault found = load_all(tree, path, 1, &text);
    if (refused(found))
        return found;
    Lines lines = lines_of(text);
    while (next_line(&lines))
        if (lines.line.length)
            note(targets, lines.line);
    return none;
}

/* The answers over a tree, each on its lines; and how many objects are stale. */
static Answer answer_all(const Tree *tree, const Names *targets, Question question, size_t *stale)
{
    Text output = {0};
    int status = 0;
    *stale = 0;
    for (size_t i = 0; i < targets->count; i++)
        *stale += answer_target(tree, targets->names[i], question, &output, &status);
    return (Answer){status, of_text(&output), {NULL, 0}, false};
}

static Answer run_questions(const Tree *tree, Bytes *words, size_t count, bool asks_why)
{
    Bytes path;
    Names targets = {0};
    size_t stale;
    bool is_json = take_option(words, &count, "--json", NULL);
    bool has_file = take_option(words, &count, "--from", &path);
    if (!has_file && !is_json && count == 0)
        return no_command();
    Fault found = targets_of(tree, words, count, has_file ? &path : NULL, &targets);
    return refused(found) ? refusal(found) : answer_all(tree, &targets, (Question){asks_why, is_json, NULL}, &stale);
}

/* The record of a target with lines behind it that give its command this path, unless it ends so. What is none is emptied. */
static Bytes marked_text(const Tree *tree, Bytes target, Bytes cause)
{
    Text text = {0}, mark = {0};
    Bytes old = find(tree, command_path(target))->bytes;
    if (!is_recorded(tree, target) || !ends(old, "\n"))
        return of_text(&text);
    add(&mark, joined("\nsavedcmd_", target, " := "));
    add(&mark, joined("", cause, "\ncmd_"));
    add(&mark, joined("", target, " := "));
    add(&mark, joined("", cause, "\n"));
    add(&text, old);
    if (text.length < mark.length || !same(from(old, text.length - mark.length), of_text(&mark)))
        add(&text, of_text(&mark));
    return of_text(&text);
}

/* What makes an object due: the path of a stamp, or of auto.conf. With `is_all` what is refused is due, and what has no number. */
static bool is_due(const Finding *finding, bool is_all, Bytes *cause)
{
    *cause = bytes_of("include/config/auto.conf");
    if (refused(finding->fault))
        return is_all;
    if (finding->verdict == CHANGED)
        *cause = joined("include/config/", finding->causes[0].name, "");
    return finding->verdict == CHANGED || finding->verdict == GENERATION_AHEAD || (is_all && finding->verdict == NOT_NUMBERED);
}

/* Whether the system's calls are given these bytes as a path: UTF-8 without NUL. */
static bool is_text_path(Bytes path)
{
    for (size_t i = 0; i < path.length;) {
        unsigned char first = (unsigned char)path.at[i++];
        size_t more = first < 0x80 ? 0 : first >= 0xc2 && first < 0xe0 ? 1 : first >= 0xe0 && first < 0xf0 ? 2 : first >= 0xf0 && first < 0xf5 ? 3 : 4;
        if (first == 0 || more == 4 || path.length - i < more)
            return false;
        for (size_t k = 0; k < more; k++) {
            unsigned char next = (unsigned char)path.at[i + k];
            unsigned char least = k || (first != 0xe0 && first != 0xf0) ? 0x80 : first == 0xe0 ? 0xa0 : 0x90;
            unsigned char most = k || (first != 0xed && first != 0xf4) ? 0xbf : first == 0xed ? 0x9f : 0x8f;
            if (next < least || next > most)
                return false;
        }
        i += more;
    }
    return true;
}

static Answer run_mark(Tree *tree, Bytes *words, size_t count)
{
    Bytes path, cause;
    Names targets = {0};
    Text output = {0};
    size_t marked = 0;
    bool is_all = take_option(words, &count, "--unrecorded", NULL);
    bool has_file = take_option(words, &count, "--from", &path);
    if (!has_file && !is_all && count == 0)
        return no_command();
    Fault found = targets_of(tree, words, count, has_file ? &path : NULL, &targets);
    if (refused(found))
        return refusal(found);
    for (size_t i = 0; i < targets.count; i++) {
        Bytes target = targets.names[i];
        Finding finding = {.count = 0};
        finding.fault = find_verdict(tree, target, (Question){false, false, NULL}, &finding);
        bool is_due_now = is_due(&finding, is_all, &cause);
        bool is_no_path = is_due_now && (is_no_file(tree, command_path(target)) || !is_text_path(target));
        if (is_text(finding.fault.text, "30 Device") || is_no_path)
            return refusal(fault("30 Device"));
        if (!is_due_now || !find(tree, command_path(target)))
            continue;
        put(tree, command_path(target), marked_text(tree, target, cause));
        marked++;
    }
    add_text(&output, "marked %zu\n", marked);
    return (Answer){0, of_text(&output), {NULL, 0}, false};
}

/* What decides a repair: the generation of what was kept, the highest of the records and of the stamps, and the names without a number. */
typedef struct {
    uint64_t generation, records, stamps;
    Names lost;
} Survey;

static Fault names_of_file(Bytes text, Names *names)
{
    Lines lines = lines_of(text);
    while (next_line(&lines)) {
        if (!is_name(lines.line))
            return fault("2 BadName line %" PRIu64, lines.number);
        note(names, lines.line);
    }
    return none;
}

/* The number of an object's record, or 0. What can't be parsed, or is too large, is none. */
static Fault number_of_record(const Tree *tree, Bytes target, uint64_t *number)
{
    CommandFile file;
    bool is_there;
    *number = 0;
    Fault found = record_of(tree, target, &file, &is_there);
    if (refused(found))
        return is_text(found.text, "30 Device") || !is_target(target) ? found : none;
    if (is_there && file.has_generation)
        *number = file.generation;
    return none;
}

static Fault survey(const Tree *tree, const Bytes *kept, const Names *names, const Names *targets, Survey *seen)
{
    Old old = {.generation = 0};
    uint64_t number;
    *seen = (Survey){.generation = 0};
    Fault found = kept ? read_auto(*kept, &old) : none;
    seen->generation = old.generation;
    for (size_t i = 0; !refused(found) && i < targets->count; i++) {
        found = number_of_record(tree, targets->names[i], &number);
        seen->records = number > seen->records ? number : seen->records;
    }
    for (size_t i = 0; !refused(found) && i < names->count; i++) {
        found = read_stamp(tree, names->names[i], &number);
        if (starts(found.text, "31 ")) {
            found = none;
            number = 0;
        }
        if (number == 0)
            note(&seen->lost, names->names[i]);
        seen->stamps = number > seen->stamps ? number : seen->stamps;
    }
    return found;
}

static void touch(Tree *tree, const Names *names, uint64_t number)
{
    Text text = {0};
    add_text(&text, "%" PRIu64 "\n", number);
    for (size_t i = 0; i < names->count; i++)
        put(tree, joined("include/config/", names->names[i], ""), of_text(&text));
}

/* The lines of the layout alone. */
static Bytes without_number(Bytes text)
{
    CommandFile file = {.has_generation = false};
    Lines lines = lines_of(text);
    int step = 0;
    while (step < 9 && next_plain_line(&lines))
        fits(lines.line, &step, &file);
    return upto(text, text.length - lines.rest.length);
}

static Answer begin_again(Tree *tree, const Names *names, const Names *targets, const Survey *seen)
{
    Old old;
    Text output = {0}, text = {0};
    uint64_t number;
    Fault found = read_old(tree, &old);
    if (refused(found))
        return refusal(found);
    uint64_t numbered = seen->generation > seen->records ? seen->generation : seen->records;
    numbered = old.generation > numbered ? old.generation : numbered;
    if (numbered == 0 && seen->stamps <= 1)
        return (Answer){0, bytes_of("no numbers\n"), {NULL, 0}, false};
    uint64_t highest = numbered > seen->stamps ? numbered : seen->stamps;
    if (highest == UINT64_MAX)
        return refusal(fault("42 GenerationFull"));
    touch(tree, names, highest + 1);
    for (size_t i = 0; i < targets->count; i++)
        if (!refused(number_of_record(tree, targets->names[i], &number)) && number > 0)
            put(tree, command_path(targets->names[i]), without_number(find(tree, command_path(targets->names[i]))->bytes));
    add_text(&text, "#generation %" PRIu64 "\n", highest + 1);
    put(tree, bytes_of(auto_path), of_text(&text));
    add_text(&output, "began again %" PRIu64 "\n", highest + 1);
    return (Answer){0, of_text(&output), {NULL, 0}, false};
}

static Answer run_repair(Tree *tree, Bytes *words, size_t count)
{
    Bytes paths[2], lists[2], kept[2];
    Names names = {0}, targets = {0};
    Survey seen;
    Text output = {0};
    bool has_stamps = take_option(words, &count, "--stamps", &paths[0]), has_targets = take_option(words, &count, "--targets", &paths[1]);
    if (!has_stamps || !has_targets || count > 2)
        return no_command();
    Bytes named[2] = {count > 0 ? words[0] : bytes_of(""), count > 1 ? words[1] : bytes_of("")};
    Fault found = count > 0 ? load_all(tree, named, 2, kept) : none;
    if (!refused(found))
        found = load_all(tree, paths, 2, lists);
    if (!refused(found))
        found = names_of_file(lists[0], &names);
    if (!refused(found))
        found = targets_of(tree, NULL, 0, &paths[1], &targets);
    if (!refused(found))
        found = survey(tree, count > 0 ? kept : NULL, &names, &targets, &seen);
    if (refused(found))
        return refusal(found);
    if (seen.generation == 0 || seen.records > seen.generation || (seen.stamps > 0 && seen.stamps - 1 > seen.generation))
        return begin_again(tree, &names, &targets, &seen);
    if (seen.generation == UINT64_MAX)
        return refusal(fault("42 GenerationFull"));
    touch(tree, &seen.lost, seen.generation + 1);
    put(tree, bytes_of(header_path), kept[1]);
    put(tree, bytes_of(auto_path), kept[0]);
    add_text(&output, "put back %" PRIu64 " touched %zu\n", seen.generation, seen.lost.count);
    return (Answer){0, of_text(&output), {NULL, 0}, false};
}

static Answer run_outdated(const Tree *tree, const Bytes *words)
{
    Names targets = {0};
    size_t stale;
    note(&targets, words[0]);
    return answer_all(tree, &targets, (Question){false, false, &words[1]}, &stale);
}

static Bytes count_line(size_t some, size_t all, const char *what)
{
    Text line = {0};
    add_text(&line, "%zu of %zu %s\n", some, all, what);
    return of_text(&line);
}

/* What `stale` says of a copy of the tree, after a `sync` in it. */
static Answer run_impact(const Tree *tree, Bytes *words, size_t count)
{
    Bytes path, texts[2];
    Plan plan;
    Names targets = {0};
    size_t stale;
    bool is_written = take_option(words, &count, "--written", NULL);
    bool is_json = take_option(words, &count, "--json", NULL);
    bool has_file = take_option(words, &count, "--from", &path);
    if (count < 2)
        return no_command();
    Tree after = copy_of_tree(tree);
    Fault found = load_all(tree, words, 2, texts);
    if (!refused(found))
        found = synchronise(&after, texts, is_written, &plan);
    if (!refused(found))
        found = targets_of(tree, words + 2, count - 2, has_file ? &path : NULL, &targets);
    if (refused(found))
        return refusal(found);
    Answer answer = answer_all(&after, &targets, (Question){false, is_json, NULL}, &stale);
    answer.error = count_line(stale, targets.count, "stale");
    return answer;
}

/* Each of the targets once, in the order of their first places. */
static Names each_once(const Names *targets)
{
    Names once = {0};
    for (size_t i = 0; i < targets->count; i++)
        note_once(&once, targets->names[i]);
    return once;
}

/* The command file of a target that `users` or `cost` asks of; where there is none to be read, the line that says so. */
static bool read_or_tell(const Tree *tree, Bytes target, CommandFile *file, Text *output, int *status)
{
    bool is_there;
    Fault found = record_of(tree, target, file, &is_there);
    if (refused(found)) {
        add(output, target);
        add(output, joined(" refused ", found.text, "\n"));
        *status = 2;
    } else if (!is_there) {
        add(output, joined("", target, " no-command-file\n"));
    }
    return !refused(found) && is_there;
}

/* The names that the words ask for: as they are, or after one CONFIG_. */
static Names symbols_of(const Bytes *words, size_t count)
{
    Names symbols = {0};
    for (size_t i = 0; i < count; i++)
        note(&symbols, starts(words[i], "CONFIG_") ? from(words[i], strlen("CONFIG_")) : words[i]);
    return symbols;
}

static Answer run_users(const Tree *tree, Bytes *words, size_t count)
{
    Bytes path;
    Names targets = {0};
    Text output = {0};
    int status = 0;
    size_t users = 0;
    if (!take_option(words, &count, "--from", &path) || count == 0)
        return no_command();
    Names symbols = symbols_of(words, count);
    Fault found = targets_of(tree, NULL, 0, &path, &targets);
    if (refused(found))
        return refusal(found);
    targets = each_once(&targets);
    for (size_t i = 0; i < targets.count; i++) {
        CommandFile file;
        bool is_user = false;
        if (!read_or_tell(tree, targets.names[i], &file, &output, &status))
            continue;
        for (size_t place = 0; place < file.names.count; place++) {
            if (!has_name(&symbols, file.names.names[place]))
                continue;
            is_user = true;
            add(&output, joined("", targets.names[i], " "));
            add(&output, joined("", file.names.names[place], " "));
            add(&output, joined("", file.places.names[place], "\n"));
        }
        users += is_user;
    }
    return (Answer){status, of_text(&output), count_line(users, targets.count, "objects"), false};
}

/* A symbol, and how many command files name it. */
typedef struct {
    Bytes name;
    size_t count;
} Cost;

typedef struct {
    Cost *all;
    size_t count, room;
} Costs;

static void count_names(Costs *costs, const CommandFile *file)
{
    Names names = each_once(&file->names);
    for (size_t i = 0; i < names.count; i++) {
        size_t place = 0;
        while (place < costs->count && !same(costs->all[place].name, names.names[i]))
            place++;
        if (place == costs->count) {
            costs->all = with_room(costs->all, costs->count, &costs->room, sizeof *costs->all);
            costs->all[costs->count++] = (Cost){names.names[i], 0};
        }
        costs->all[place].count++;
    }
}

/* The greater number first, and of equal ones the lesser name. */
static int by_cost(const void *a, const void *b)
{
    const Cost *one = a, *other = b;
    return one->count != other->count ? (one->count < other->count ? 1 : -1) : compare(one->name, other->name);
}

static Answer run_cost(const Tree *tree, Bytes *words, size_t count)
{
    Bytes path, number;
    Names targets = {0};
    Costs costs = {0};
    Text output = {0};
    int status = 0;
    uint64_t top = UINT64_MAX;
    bool has_file = take_option(words, &count, "--from", &path);
    bool has_top = take_option(words, &count, "--top", &number);
    if ((has_top && !read_decimal(number, &top)) || (!has_top && !has_file && count == 0))
        return no_command();
    Fault found = targets_of(tree, words, count, has_file ? &path : NULL, &targets);
    if (refused(found))
        return refusal(found);
    targets = each_once(&targets);
    for (size_t i = 0; i < targets.count; i++) {
        CommandFile file;
        if (read_or_tell(tree, targets.names[i], &file, &output, &status))
            count_names(&costs, &file);
    }
    if (costs.count)
        qsort(costs.all, costs.count, sizeof *costs.all, by_cost);
    for (size_t i = 0; i < costs.count && i < top; i++) {
        add(&output, joined("", costs.all[i].name, " "));
        add_text(&output, "%zu\n", costs.all[i].count);
    }
    return (Answer){status, of_text(&output), {NULL, 0}, false};
}

/* What a name has in an auto.conf: `n` where it has nothing. */
static Bytes shown_value(const Symbol *entry)
{
    Text text = {0};
    if (!entry)
        return bytes_of("n");
    if (entry->kind != STRING)
        return entry->text;
    add_quoted(&text, entry->text);
    return of_text(&text);
}

static const char *class_word(Kind kind)
{
    Kind class = class_of(kind);
    if (class == NO_KIND)
        return "untyped";
    return class == TRISTATE ? "bool/tristate" : class == RAW ? "raw string" : kind_words[class];
}

static void add_difference(Text *output, Bytes name, const Symbol *old, const Symbol *new)
{
    add(output, joined("", name, " "));
    add(output, joined("", shown_value(old), " -> "));
    add(output, shown_value(new));
    if (old && new && same(old->text, new->text))
        add_text(output, " (%s -> %s)", class_word(old->kind), class_word(new->kind));
    add_text(output, "\n");
}

static Answer run_diff(const Tree *tree, Bytes *words, size_t count)
{
    Bytes texts[2];
    Plan plan;
    Old old;
    Text output = {0};
    bool is_written = take_option(words, &count, "--written", NULL);
    bool is_quiet = take_option(words, &count, "--quiet", NULL);
    bool has_status = take_option(words, &count, "--exit-code", NULL) || is_quiet;
    if (count != 2)
        return no_command();
    Tree after = copy_of_tree(tree);
    Fault found = load_all(tree, words, 2, texts);
    if (!refused(found))
        found = synchronise(&after, texts, is_written, &plan);
    if (!refused(found))
        found = read_old(tree, &old);
    if (refused(found))
        return refusal(found);
    for (size_t i = 0; i < plan.count && !is_quiet; i++) {
        Bytes name = plan.touched[i];
        const Symbol *was = symbol_named(&old.entries, name), *is = symbol_named(&plan.settings, name);
        if (is_change(was, is))
            add_difference(&output, name, was, is);
    }
    Text no_lines = {0};
    return (Answer){has_status && plan.count > 0, of_text(&output), of_text(is_quiet ? &no_lines : &plan.unknown_lines), false};
}

/* What `status` says of the header. Whether it is as auto.conf says: other definitions may stand behind, or some be cut off. */
static bool add_header_state(Text *output, const Old *old, Bytes text, bool is_there)
{
    Lines lines = lines_of(text);
    size_t count = 0;
    if (!is_there) {
        add_text(output, "header: missing\n");
        return false;
    }
    while (next_plain_line(&lines)) {
        if (!starts(lines.line, "#define "))
            continue;
        if (!is_definition(lines.line, old)) {
            add_text(output, "header: differs in line %" PRIu64 "\n", lines.number);
            return false;
        }
        count++;
    }
    add_text(output, count < old->entries.count ? "header: lacks a definition\n" : "header: same\n");
    return count == old->entries.count;
}

static Answer run_status(const Tree *tree, Bytes *words, size_t count)
{
    Bytes texts[2], header, *names;
    Plan plan;
    Old old;
    Text output = {0};
    bool is_written = take_option(words, &count, "--written", NULL), is_there = false;
    bool is_beside = count > 0;
    if (count > 2)
        return no_command();
    if (count == 1)
        return refusal(fault("21 BadPath token 0"));
    Fault found = is_beside ? load_all(tree, words, 2, texts) : none;
    if (!refused(found) && is_beside)
        found = plan_of(texts, is_written, &plan);
    if (!refused(found))
        found = read_old(tree, &old);
    if (!refused(found))
        found = read_file(tree, bytes_of(header_path), &header, &is_there);
    if (refused(found))
        return refusal(found);
    size_t changed = is_beside ? changes(&old, &plan.settings, &names) : 0;
    add_text(&output, old.generation ? "auto.conf: generation %" PRIu64 "\n" : "auto.conf: not synchronised\n", old.generation);
    bool is_same = add_header_state(&output, &old, header, is_there);
    if (is_beside)
        add_text(&output, changed ? "configuration: changed %zu\n" : "configuration: same\n", changed);
    return (Answer){!is_same || changed > 0 || old.generation == 0, of_text(&output), {NULL, 0}, false};
}

/* A line of a script: its command and its words. */
typedef struct {
    enum { SYNC, RECORD, STALE } command;
    Bytes words[3];
} Step;

/* Cuts off `count` words that aren't empty and end at a space. */
static bool cut_words(Bytes *rest, size_t count, Bytes *words)
{
    for (size_t i = 0; i < count; i++) {
        size_t length = place_of(*rest, ' ');
        if (length == 0 || length == rest->length)
            return false;
        words[i] = upto(*rest, length);
        *rest = from(*rest, length + 1);
    }
    return true;
}

static bool is_word(Bytes text)
{
    return text.length > 0 && place_of(text, ' ') == text.length;
}

static bool read_step(Bytes line, Step *step)
{
    Bytes first, rest = line;
    if (!cut_words(&rest, 1, &first))
        return false;
    if (is_text(first, "stale")) {
        step->command = STALE;
        step->words[0] = rest;
        return is_word(rest);
    }
    if (is_text(first, "sync")) {
        step->command = SYNC;
        bool is_cut = cut_words(&rest, 1, step->words);
        step->words[1] = rest;
        return is_cut && is_word(rest) && is_path(step->words[0]) && is_path(rest);
    }
    step->command = RECORD;
    bool is_cut = is_text(first, "record") && cut_words(&rest, 2, step->words);
    step->words[2] = rest;
    return is_cut;
}

static Fault read_script(Bytes text, Step **steps, size_t *count)
{
    *count = 0;
    if (text.length > MAX_BYTES)
        return fault("9 TooLarge");
    *steps = keep((text.length + 1) * sizeof **steps);
    Lines lines = lines_of(text);
    while (next_line(&lines)) {
        if (lines.line.length == 0 || lines.line.at[0] == '#')
            continue;
        if (!read_step(lines.line, &(*steps)[*count]))
            return fault("50 BadScript line %" PRIu64, lines.number);
        ++*count;
    }
    return none;
}

static void run_step(Tree *tree, const Step *step, const Bytes *texts, Text *output, int *status)
{
    Plan plan;
    uint64_t generation;
    size_t names;
    Fault found;
    if (step->command == RECORD) {
        found = record(tree, (RecordOptions){false, false, false}, step->words, &generation, &names);
        if (!refused(found)) {
            add(output, joined("record ", step->words[1], ""));
            add_text(output, " generation %" PRIu64 " names %zu\n", generation, names);
        }
    } else {
        found = synchronise(tree, texts, false, &plan);
        if (!refused(found))
            add_text(output, "sync generation %" PRIu64 " touched %zu unknown %" PRIu64 "\n", plan.generation, plan.count, plan.unknown);
    }
    if (refused(found)) {
        add(output, joined("refused ", found.text, "\n"));
        *status = 2;
    }
}

static Answer run_batch(Tree *tree, Bytes script)
{
    Bytes text;
    Step *steps;
    size_t count;
    Fault found = load_all(tree, &script, 1, &text);
    if (!refused(found))
        found = read_script(text, &steps, &count);
    if (refused(found))
        return refusal(found);
    Bytes(*texts)[2] = keep((count + 1) * sizeof *texts);
    for (size_t i = 0; i < count; i++)
        if (steps[i].command == SYNC) {
            found = load_all(tree, steps[i].words, 2, texts[i]);
            if (refused(found))
                return refusal(found);
        }
    Text output = {0};
    int status = 0;
    for (size_t i = 0; i < count; i++)
        if (steps[i].command == STALE)
            answer_target(tree, steps[i].words[0], (Question){false, false, NULL}, &output, &status);
        else
            run_step(tree, &steps[i], texts[i], &output, &status);
    return (Answer){status, of_text(&output), {NULL, 0}, false};
}

static Answer run_command(Tree *tree, Bytes *words, size_t count)
{
    bool is_preview = is_text(words[0], "preview");
    bool is_written = (is_preview || is_text(words[0], "sync")) && take_option(words, &count, "--written", NULL);
    bool is_record = is_text(words[0], "record");
    RecordOptions options = {
        .has_cmd = is_record && take_option(words, &count, "--cmd", NULL),
        .is_before_sync = is_record && take_option(words, &count, "--before-sync", NULL),
    };
    if (is_record)
        take_elsewhere(words, &count);
    if (is_text(words[0], "sync") && count == 3)
        return run_sync(tree, words + 1, is_written);
    if (is_preview && (count == 3 || count == 4))
        return run_preview(tree, words + 1, count - 1, is_written);
    if (is_text(words[0], "fixdep") && count == 4)
        return run_fixdep(tree, words + 1);
    if (is_record && count == 4)
        return run_record(tree, options, words + 1);
    if (is_text(words[0], "depfile"))
        return run_depfile(tree, words + 1, count - 1);
    if (is_text(words[0], "diff"))
        return run_diff(tree, words + 1, count - 1);
    if (is_text(words[0], "status"))
        return run_status(tree, words + 1, count - 1);
    if (is_text(words[0], "stale") || is_text(words[0], "why"))
        return run_questions(tree, words + 1, count - 1, is_text(words[0], "why"));
    if (is_text(words[0], "impact"))
        return run_impact(tree, words + 1, count - 1);
    if (is_text(words[0], "users"))
        return run_users(tree, words + 1, count - 1);
    if (is_text(words[0], "cost"))
        return run_cost(tree, words + 1, count - 1);
    if (is_text(words[0], "mark"))
        return run_mark(tree, words + 1, count - 1);
    if (is_text(words[0], "repair"))
        return run_repair(tree, words + 1, count - 1);
    if (is_text(words[0], "outdated") && count == 3)
        return run_outdated(tree, words + 1);
    if (is_text(words[0], "batch") && count == 2)
        return run_batch(tree, words[1]);
    fputs("model: words that it doesn't know\n", stderr);
    exit(2);
}

/* In front of a command stands `--dialect NAME`, or nothing. */
Answer run_words(Tree *tree, const Bytes *words, size_t count)
{
    dialect = LINUX;
    header_suffix = NULL;
    elsewhere.is_named = false;
    if (count > 2 && is_text(words[0], "--dialect")) {
        dialect = is_text(words[1], "busybox")    ? BUSYBOX
                  : is_text(words[1], "u-boot")   ? U_BOOT
                  : is_text(words[1], "coreboot") ? COREBOOT
                                                  : LINUX;
        words += 2;
        count -= 2;
    }
    Bytes *own = keep((count + 1) * sizeof *own);
    memcpy(own, words, count * sizeof *own);
    return run_command(tree, own, count);
}
