# For tools/statements. Input: the declared names (tools/declared), the wanted ones, then the sources as FILE, LINE, TEXT.
# Output: FILE, PLACE, TEXT for each line of what is wanted and of the definitions that it mentions; a line of \001 opens a block, one with \002 in front is
# the head of a module that the block stands in.

# ---- the three inputs

FNR == 1 { input++ }

input == 1 {
    sort[$1] = $2
    file_of[$1] = $3
    line_of[$1] = $4
    if ($1 ~ /#/) {
        short = substr($1, index($1, "#") + 1)
        here[$3, short] = $1
        if ($2 == "type") { split($1, part, "/"); type[part[1], short] = $1 }
    }
    next
}

input == 2 { wanted[++asked] = $1; next }

{
    file = $1
    number = $2
    text = substr($0, length(file) + length(number) + 3)
    lines[file, number] = text
    last[file] = number
    # an item of Rust may go over several lines
    if (file ~ /\.rt$/ && (open_use != "" || text ~ /^(pub )?use /)) {
        sub(/^pub /, "", text)
        sub(/^ */, "", text)
        open_use = open_use (open_use == "" || open_use ~ /\{$/ ? "" : " ") text
        if (text !~ /;$/) next
        text = open_use
        open_use = ""
        sub(/, *\};/, "};", text)
        sub(/;$/, "", text)
        imports(file, text)
    } else if (text ~ /^(ghost )?use /) imports(file, text)
}

# `use Rattle.crate.specs.File.{a, b}`, `use Rattle.crate.specs.declared.Type.{Type}`, `use crate::{Type, Other};`
function imports(file, text,    crate, path, names, count, i) {
    sub(/^(ghost )?use /, "", text)
    if (text ~ /^Rattle\./) {
        if (text !~ /\{/) return
        sub(/^Rattle\./, "", text)
        crate = text
        sub(/\..*/, "", crate)
        if (text !~ /^[a-z_0-9]*\.(specs|proofs)\./) return
        path = substr(text, length(crate) + 2)
        names = path
        sub(/\.\{.*/, "", path)
        sub(/^[^{]*\{/, "", names)
        sub(/\}.*/, "", names)
        count = split(names, name, /, */)
        gsub(/\./, "/", path)
        for (i = 1; i <= count; i++) {
            if (path ~ /TheVariants/) continue
            if (path ~ /declared/) brought[file, name[i]] = "type " crate " " name[i]
            else brought[file, name[i]] = crate "/" path "#" name[i]
        }
    } else if (text ~ /::/) {
        crate = text
        sub(/::.*/, "", crate)
        sub(/;.*/, "", text)
        sub(/^.*::\{?/, "", text)
        sub(/\}$/, "", text)
        count = split(text, name, /, */)
        for (i = 1; i <= count; i++) if (name[i] ~ /^[A-Z][A-Za-z]*$/) brought[file, name[i]] = "type " crate " " name[i]
    }
}

# ---- a block: its first and last line

function indent(text) { return match(text, /[^ ]/) - 1 }

function blank(text) { return text ~ /^ *$/ }

# the line before the body, of a function; the whole, of a type; the line, of a constant
function end_of_item(file, from, what,    n, text) {
    if (what == "const") return from
    for (n = from; n <= last[file]; n++) {
        text = lines[file, n]
        if (what == "type") { if (text ~ /^}/ || text ~ /;$/ && n == from) return n; continue }
        if (text ~ /^ *\{ *$/) return n - 1
        if (text ~ /\{ *$/ && text !~ /^ *(requires|ensures)/) return n
    }
    return from
}

# the whole of a definition; of a law the signature
function end_of_law(file, from, what, name,    n, text) {
    for (n = from + 1; n <= last[file]; n++) {
        text = lines[file, n]
        if (blank(text)) return n - 1
        if (what == "law") {
            sub(/^ */, "", text)
            if (text ~ /^unfolding / || index(text, name " ") == 1) return n - 1
        }
    }
    return last[file]
}

function comment(text) { return text ~ /^ *(--|\/\/) ?/ && text !~ /^ *-- ----/ || text ~ /^ *#\[(derive|cycle)/ }

function plan(key,    file, what, from, to, deep, n, d, text) {
    file = file_of[key]
    what = sort[key]
    from = line_of[key]
    if (key ~ /::/) short = key; else short = substr(key, index(key, "#") + 1)
    if (what == "law" || what == "def") to = end_of_law(file, from, what, short)
    else to = end_of_item(file, from, what)
    ends[file, from] = to
    begins[file, from] = from
    while (comment(lines[file, begins[file, from] - 1])) begins[file, from]--
    # what a trait's promise is here stands before its function
    n = begins[file, from] - 1
    while (blank(lines[file, n]) && n > 1) n--
    if (lines[file, n] ~ /^ +ghost [a-z_]+ = \{.*\};$/) begins[file, from] = n
    # the modules that it stands in
    deep = indent(lines[file, from])
    for (n = from - 1; n > 0 && deep > 0; n--) {
        text = lines[file, n]
        if (blank(text)) continue
        d = indent(text)
        if (d < deep && text ~ /^ *(module|impl|trait|pub trait)[ <]/) { deep = d; above[file, from] = n " " above[file, from] }
    }
}

# ---- what a block mentions

function mention(key, file, from, to,    n, text, word, count, i, target) {
    for (n = from; n <= to; n++) {
        text = lines[file, n]
        if (comment(text)) continue
        gsub(/[][(){};,.|&:]/, " ", text)
        count = split(text, word, / +/)
        for (i = 1; i <= count; i++) {
            if (word[i] == "") continue
            target = ""
            # a clause names what is brought, and no function
            if ((file, word[i]) in here && !(file ~ /\.rt$/ && (file, word[i]) in brought)) target = here[file, word[i]]
            else if ((file, word[i]) in brought) target = brought[file, word[i]]
            if (target ~ /^type /) {
                split(target, part, " ")
                target = (part[2], part[3]) in type ? type[part[2], part[3]] : ""
            }
            if (target != "" && target in sort && (sort[target] == "def" || sort[target] == "type")) want(target)
        }
    }
}

function want(key) {
    if (key in taken) return
    taken[key] = 1
    queue[++waiting] = key
}

END {
    for (i = 1; i <= asked; i++) if (wanted[i] in sort) want(wanted[i])
    bad = 0
    for (next_one = 1; next_one <= waiting; next_one++) {
        key = queue[next_one]
        file = file_of[key]
        from = line_of[key]
        if (!((file, from) in ends)) plan(key)
        count_above = split(above[file, from], outer, " ")
        for (j = 1; j <= count_above; j++) if (outer[j] != "") mention(key, file, outer[j], outer[j])
        mention(key, file, from, ends[file, from])
    }
    for (place in ends) {
        split(place, part, SUBSEP)
        file = part[1]
        from = part[2]
        stated = 0
        printf "%s\t%d.000\t\001\n", file, from
        count_above = split(above[file, from], outer, " ")
        k = 0
        for (j = 1; j <= count_above; j++) if (outer[j] != "") printf "%s\t%d.%03d\t\002%s\n", file, from, ++k, lines[file, outer[j]]
        for (n = begins[file, from]; n <= ends[file, from]; n++) {
            text = lines[file, n]
            if (text ~ /ensures/) stated = 1
            if (n == ends[file, from] && file ~ /\.rt$/) sub(/ \{$/, "", text)
            printf "%s\t%d.%03d\t%s\n", file, from, ++k, text
        }
        has_ensures[file, from] = stated
    }
    for (i = 1; i <= asked; i++) {
        key = wanted[i]
        if (key ~ /::/ && key in sort && !has_ensures[file_of[key], line_of[key]]) {
            printf "no `ensures`: %s\n", key > "/dev/stderr"
            bad = 1
        }
    }
    exit bad
}
