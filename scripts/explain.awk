# Explains the replies to a script. After pairing.awk; SHOWN in the environment is the script's name as it is printed.
# usage: SHOWN=NAME awk -f pairing.awk -f explain.awk SCRIPT REPLIES; ends with 1 where there was something to explain.
#   declared[R], declared_at[R]   the accepted declaration of the relation R, and its line
#   refused_at[R]                 the line of the last refused declaration of R
#   relations, present            the declarations, `; ` between them; the names of the present examples, in blanks
#   facts[E]                      the facts of the example E, of both sides, each between blanks
#   old_present, old_name, old_facts   what each of the last 32 edits changed, as it was before it

# The line with one blank between words and none at signs, as its facts are printed.
function tidy(line) {
    gsub(/[ \t]+/, " ", line); gsub(/ ?\( ?/, "(", line); gsub(/ ?, ?/, ",", line); gsub(/ ?\)/, ")", line)
    sub(/^ /, "", line); sub(/ $/, "", line)
    return line
}
function relation(atom) { return substr(atom, 1, index(atom "(", "(") - 1) }
function arguments(atom) { atom = substr(atom, index(atom, "(") + 1); return substr(atom, 1, length(atom) - 1) }
function without(list, item,    at) {
    at = index(list, " " item " ")
    return substr(list, 1, at) substr(list, at + length(item) + 2)
}
function say(text) { print "    " text }

# What an accepted line does.
function done(    name) {
    if (word[1] == "source" || word[1] == "target") {
        name = relation(word[2]); declared[name] = tidied; declared_at[name] = number
        relations = relations (relations == "" ? "" : "; ") tidied
    } else if (word[1] == "undo") {
        edits--; present = old_present[edits % 32]; facts[old_name[edits % 32]] = old_facts[edits % 32]
    } else if (word[1] != "kind") {
        edit(word[2], word[3])
    }
}
function edit(name, fact) {
    old_present[edits % 32] = present; old_name[edits % 32] = name; old_facts[edits % 32] = facts[name]; edits++
    if (word[1] == "new") { present = present name " "; facts[name] = " " }
    if (word[1] == "drop") present = without(present, name)
    if (word[1] == "put") facts[name] = facts[name] fact " "
    if (word[1] == "cut") facts[name] = without(facts[name], fact)
}

# Why a line is not of the language, as far as its bytes tell.
function slip(line,    at, longest) {
    if (length(line) > 4096) return "the line has " length(line) " bytes; 4096 are allowed"
    at = match(line, /[^A-Za-z0-9_.?(), \t]/)
    if (at) return "byte " at shown_byte(substr(line, at, 1)) " is of no word, and no line has it outside a comment"
    longest = longest_word(line)
    if (longest > 64) return "a word has " longest " bytes; 64 are allowed"
    if (line ~ /(^|[^A-Za-z0-9_.])\./) return "a word does not begin with a dot"
    if (line ~ /\?([^A-Za-z0-9_]|$)/) return "a null is a question mark directly followed by a word"
    if (word[1] in form) return "such a line has the form `" form[word[1]] "`"
    return "no line begins with `" word[1] "`"
}
function shown_byte(byte) { return byte ~ /[!-~]/ ? ", `" byte "`," : "" }
function longest_word(line,    longest) {
    for (; match(line, /[A-Za-z0-9_.]+/); line = substr(line, RSTART + RLENGTH)) if (RLENGTH > longest) longest = RLENGTH
    return longest + 0
}

# The declaration of a relation, as it is printed in an explanation.
function declaration(name) { return "`" declared[name] "` at line " declared_at[name] }

function taken(    name, column, count, seen, k) {
    if (word[1] == "new") { say("an example " word[2] " is there"); return }
    name = relation(word[2])
    if (name in declared) { say("the name " name " is taken by " declaration(name)); return }
    count = split(arguments(word[2]), column, ",")
    for (k = 1; k <= count; k++) if (column[k] in seen) say("two columns are named " column[k]); else seen[column[k]] = 1
}
function full(limit) {
    if (limit == 16) say("a relation has at most 16 columns")
    else if (limit == 512) say("this side of the example " word[2] " has 512 facts")
    else if (word[1] == "new") say("there are 64 examples")
    else say("the " word[1] " has 64 relations")
}
function undeclared(name) {
    say(name " is not declared above this line" (name in refused_at ? "; its declaration at line " refused_at[name] " was refused" : ""))
    say(relations == "" ? "nothing is declared" : "declared: " relations)
}
function refusal(    name, column) {
    name = relation(word[3])
    if (part[2] == 1) say(slip(line))
    if (part[2] == 2) taken()
    if (part[2] == 3) undeclared(name)
    if (part[2] == 4) say(name " has another number of columns than " split(arguments(word[3]), column, ",") ": " declaration(name))
    if (part[2] == 5) say(name " is a source relation, whose facts have no null: " declaration(name))
    if (part[2] == 6) say("no example is named " word[2] "; present:" (present == " " ? " none" : substr(present, 1, length(present) - 1)))
    if (part[2] == 7) say("the fact stands in " word[2] " already")
    if (part[2] == 8) say("the fact does not stand in " word[2])
    if (part[2] == 9) full(part[4])
    if (part[2] == 10) say("no edit is left to take back; at most the last 32 can be")
    say("see `refused " part[2] " " part[3] (part[2] == 9 ? " N" : "") "` in docs/refusals.md")
    if (word[1] == "source" || word[1] == "target") refused_at[relation(word[2])] = number
}

# The facts of a target of which one has the foreign constant.
function foreign(name, constant,    fact, count, k) {
    say(constant " is in the target of " name " and not in its source")
    count = split(facts[name], fact, " ")
    for (k = 1; k <= count; k++)
        if (declared[relation(fact[k])] ~ /^target/ && index("," arguments(fact[k]) ",", "," constant ",")) say("it stands in " fact[k])
    say("see `domain` in docs/verdicts.md")
}

# The fact with each constant replaced by its image; nulls stay.
function renamed(fact,    value, count, k, text) {
    count = split(arguments(fact), value, ",")
    for (k = 1; k <= count; k++) text = text (k == 1 ? "" : ",") (value[k] in image ? image[value[k]] : value[k])
    return relation(fact) "(" text ")"
}
# Whether a fact becomes the other one by some choice of values for its nulls.
function becomes(fact, other,    value, wanted, chosen, count, k) {
    if (relation(fact) != relation(other)) return 0
    count = split(arguments(fact), value, ","); split(arguments(other), wanted, ",")
    for (k = 1; k <= count; k++) {
        if (value[k] !~ /^\?/) { if (value[k] != wanted[k]) return 0 }
        else if (value[k] in chosen) { if (chosen[value[k]] != wanted[k]) return 0 }
        else chosen[value[k]] = wanted[k]
    }
    return 1
}
# The facts of a target that have a null, and for each whether it alone could become a fact without nulls of this target.
function unfolded(name,    fact, other, count, k, j, found, lacking) {
    say("the target of " name " is not part of its own facts without nulls, whatever its nulls stand for")
    count = split(facts[name], fact, " "); split(facts[name], other, " ")
    for (k = 1; k <= count; k++) {
        if (declared[relation(fact[k])] !~ /^target/ || fact[k] !~ /\?/) continue
        found = 0
        for (j = 1; j <= count && !found; j++) if (other[j] !~ /\?/ && becomes(fact[k], other[j])) found = j
        if (!found) { lacking = 1; say(fact[k] " becomes no fact without nulls of " name) }
        else say(fact[k] " alone can become " other[found])
    }
    if (!lacking) say("each fact alone can become one without nulls; no choice for the nulls suits all of them at once")
    say("see `fold` in docs/verdicts.md")
}
function refuted(first, second, parts,    k, fact, other, count, others, j, found, lacking, at) {
    split("", image)
    for (k = 4; k <= parts; k++) { at = index(part[k], "->"); image[substr(part[k], 1, at - 1)] = substr(part[k], at + 2) }
    say("renamed by the arrows, the source of " first " is part of the source of " second)
    say("its target is not part of the target of " second (facts[first] ~ /\?/ ? ", whatever its nulls stand for" : ""))
    count = split(facts[first], fact, " "); others = split(facts[second], other, " ")
    for (k = 1; k <= count; k++) {
        if (declared[relation(fact[k])] !~ /^target/) continue
        found = 0
        for (j = 1; j <= others && !found; j++) found = becomes(renamed(fact[k]), other[j])
        if (!found) { lacking = 1; say(fact[k] " becomes " renamed(fact[k]) "; " second " has no such fact") }
    }
    if (!lacking) say("each fact alone can become a fact of " second "; no choice for the nulls suits all of them at once")
    say("see `refuted` in docs/verdicts.md")
}

BEGIN {
    script = ARGV[1]; replies = ARGV[2]; present = " "; edits = 0
    form["source"] = "source R(c,..)"; form["target"] = "target R(c,..)"; form["new"] = "new E"; form["drop"] = "drop E"
    form["put"] = "put E R(a,..)"; form["cut"] = "cut E R(a,..)"; form["undo"] = "undo"; form["fit"] = "fit"
    form["kind"] = "kind glav` or `kind gav"
    for (number = 1; (getline line < script) > 0; number++) {
        line = without_return(line)
        if (is_silent(line)) continue
        place = ENVIRON["SHOWN"] ":" number ": "
        if ((getline reply < replies) <= 0) { print place "no reply: the run stopped here"; exit 1 }
        for (rest = following(reply); rest > 0; rest--) getline skipped < replies
        tidied = tidy(line); split(tidied, word, " "); parts = split(reply, part, " ")
        if (part[1] == "ok") done()
        if (part[1] !~ /^(refused|domain|fold|refuted)$/) continue
        print place reply; explained = 1
        if (part[1] == "refused") refusal()
        if (part[1] == "domain") foreign(part[2], part[3])
        if (part[1] == "fold") unfolded(part[2])
        if (part[1] == "refuted") refuted(part[2], part[3], parts)
    }
    exit explained
}
