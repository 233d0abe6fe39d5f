# Which lines of a script have a reply, and how many lines a reply has. `docs/replies.md` says it in words.
# Needs LC_ALL=C, so that a length is a number of bytes.

# A line as getline gives it, without the carriage return that belongs to its end.
function without_return(line) { sub(/\r$/, "", line); return line }

# Whether a line has no reply: spaces and tabs alone, or after these a comment. A line that is too long has one.
function is_silent(line) { return length(line) <= 4096 && line ~ /^[ \t]*(#.*)?$/ }

# How many lines follow the first line of a reply.
function following(reply,    parts, count) {
    count = split(reply, parts, " ")
    return parts[1] == "fits" ? parts[count] + 0 : 0
}
