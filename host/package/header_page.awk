# The header as a manual page of section 3: awk -v version=2.6.0 -f header_page.awk include/blorb.h
# Comments at the margin become text; constants, structures and declarations stay as they are, without the bodies of functions. What a comment begins
# with "Inside:" is left out with the code below it, and so is what C and C++ need around the declarations.
function plain(text) {
    gsub(/\\/, "\\e", text)
    gsub(/-/, "\\-", text)
    return text ~ /^[.\047]/ ? "\\&" text : text
}
# A line of code is held back until it is known whether a body follows, in whose place a semicolon stands.
function let_go(end) { if (held != "") print held end; held = "" }
function end_code() { let_go(""); if (mode == "code") print ".fi\n.RE" }
function to_text() { end_code(); if (mode != "text") print ".PP"; mode = "text" }
function to_code() { let_go(""); if (mode != "code") print ".PP\n.RS 2\n.nf"; mode = "code" }

# A line of a comment at the margin, without its frame.
function text_line(line) {
    if (line == "") { bullet = 0; broken = 1; return }
    if (line ~ /^  - /) {
        to_text()
        print ".IP \\(bu 2\n" plain(substr(line, 5))
        bullet = 1; broken = 0
    } else if (line ~ /^    / && !bullet) {
        to_code()
        held = plain(substr(line, 5))
        broken = 0
    } else {
        to_text()
        if (broken) print ".PP"
        sub(/^ +/, "", line)
        print plain(line)
        broken = 0
    }
}

# The first line of a comment decides what becomes of it.
function opened(line) {
    let_go("")
    inside = line ~ /^Inside:/
    if (inside) return
    if (match(line, /^(Stack|Refusals|Reading|The finding table|Group files|Scaled pictures|Spoken descriptions|Editing|An editor)[.: ]/)) {
        end_code()
        mode = "head"
        print ".SS " substr(line, 1, RLENGTH - 1)
    }
    bullet = 0; broken = 0
    if (mode != "text") to_text(); else print ".PP"
}

BEGIN {
    print ".TH BLORB 3 \"\" \"blorb " version "\" \"C library\"\n.nh\n.ad l"
    print ".SH NAME\nblorb \\- read Blorb files, change them in place, and take changes back"
    print ".SH SYNOPSIS\n.nf\n.B #include <blorb.h>\n.PP\ncc game.c $(pkg\\-config \\-\\-cflags \\-\\-libs blorb)\n.fi\n.SH DESCRIPTION"
    mode = "head"
}
/^#ifndef BLORB_H/ { skipping = 1 }
skipping && /^\/\* The version of this header/ { skipping = 0 }
skipping { next }
/^#ifdef __cplusplus/ { exit }
/^\/\*.*\*\/$/ { line = $0; sub(/^\/\* */, "", line); sub(/ *\*\/$/, "", line); opened(line); if (!inside) text_line(line); next }
/^\/\*/ { comment = 1; first = 1; line = $0; sub(/^\/\* */, "", line); if (line == "") next }
comment {
    if (/^ \*\/$/) { comment = 0; next }
    line = $0
    sub(/^ \* ?/, "", line)
    if (line ~ /^blorb\.h: /) next
    if (first) { if (line == "") next; opened(line); first = 0 }
    if (!inside) text_line(line)
    next
}
# The body of a function is left out.
/^\{$/ { body = 1; let_go(";"); next }
/^\}$/ && body { body = 0; next }
body { next }
/^$/ { if (!listing) inside = 0; if (listing && !inside) { let_go(""); print "" } next }
/^(enum|typedef struct).*\{$/ { listing = 1 }
/^\}.*;$/ { listing = 0 }
!inside {
    gsub(/BLORB_FOUR/, "4")
    gsub(/ *BLORB_NO_ZERO\([a-z_]+\)/, "")
    sub(/^static inline /, "")
    if ($0 == ";") { let_go(";"); next }
    to_code()
    held = plain($0)
}
END { end_code(); print ".SH SEE ALSO\n.BR blorb (1)" }
