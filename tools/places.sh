#!/bin/sh
# places.sh: counts points 1, 2 and 3 of docs/DESIGN-PASS.md once more, with awk alone and by the look of the lines as `rt fmt` sets them: a check
# on tools/places.py, whose rules it follows. Where a call or a condition goes over several lines the two may differ by a few.
set -eu
cd "$(dirname "$0")/.."
files=$(find crates -path '*/src/*' -name '*.rt' | LC_ALL=C sort)
LC_ALL=C awk '
function clean(s) {  # without comments and the insides of strings
    if (s ~ /^ *\/\//) return ""
    gsub(/"([^"\\]|\\.)*"/, "\"\"", s); gsub(/\047(\\.|[^\047\\])\047/, "\"\"", s); sub(/ *\/\/.*/, "", s)
    return s
}
function indent(s) { match(s, /^ */); return RLENGTH }
function number(t) { return t ~ /^([ui](8|16|32|64|size)|f(32|64))$/ }
function add(rule) { n[rule]++; if (!((rule, crate) in seen)) { seen[rule, crate] = 1; crates[rule]++ } }
function has(text, word) { return (" " text " ") ~ ("[^A-Za-z0-9_.]" word "[^A-Za-z0-9_]") }
function is_case(name) {
    if (name ~ /_(side|kind)$/) return 1
    return name ~ /^(kind|of|what|detail|second|code|placement|choice|which|class|table|form|how|case|why|fault|due|want|past|colou?r|arrow|side)$/
}
function is_flag(name) { return name ~ /^(there|given|checked|tested|joins|drawn|late|lined|read|asked|flag|has_.*|.*_given)$/ }
function is_kind(name, type, others, asks) {
    if (type !~ /^[ui](8|16|32|64|size)$/) return 0
    if (is_case(name)) return 1
    if (name == "k") return type == "u64" || has(asks, "k < 6")
    if (name == "l") return type == "u64" && others ~ / k:/
    return name == "rule" && others ~ / placement:/
}
function parameters(   i, m, parts, one, name, type, at) {
    m = split(params, parts, /, /); arity = 0
    for (i = 1; i <= m; i++) {
        one = parts[i]; gsub(/^ +|[ ,]+$/, "", one); sub(/^mut /, "", one)
        if (one !~ /: /) continue
        name = one; sub(/:.*/, "", name); type = one; sub(/^[^:]*: */, "", type); arity++
        pname[arity] = name; ptype[arity] = type
    }
    for (i = 1; i <= arity; i++) {
        at = is_kind(pname[i], ptype[i], " " params, asks)
        if (pass == 1 && at && (wanted[fn, arity] " ") !~ (" " i " ")) wanted[fn, arity] = wanted[fn, arity] " " i
        if (pass == 2 && at) add("1c.1")
        if (pass == 2 && arity > 1 && (number(ptype[i]) || ptype[i] == "bool") && is_flag(pname[i])) add("1b.2")
    }
}
function signs(s,   out, t, loose) {  # @ for a name, # for a number
    out = ""
    while (match(s, /[A-Za-z_][A-Za-z0-9_]*(::[A-Za-z_][A-Za-z0-9_]*)*|[0-9][0-9A-Za-z_]*(\.[0-9][0-9A-Za-z_]*)?/)) {
        t = substr(s, RSTART, RLENGTH)
        if (t ~ /^[0-9]/) t = "#"
        else if (t !~ /^(let|mut|if|else|match|while|for|in|loop|return|break|continue|as|ref|move|true|false)$/) t = "@"
        out = out substr(s, 1, RSTART - 1) "<" t ">"; s = substr(s, RSTART + RLENGTH)
    }
    out = out s; gsub(/[ \n]/, "", out); gsub(/<@>""/, "\"\"", out)
    gsub(/,\)/, ")", out); gsub(/,\]/, "]", out); gsub(/,\}/, "}", out)
    return out
}
function calls_with_kinds(s,   name, args, m, parts, i, w, k) {  # 1c.5: the innermost calls, then those around them
    while (match(s, /[a-z_][A-Za-z0-9_]*\([^()]*\)/)) {
        name = substr(s, RSTART, RLENGTH); args = name; sub(/\(.*/, "", name); sub(/^[^(]*\(/, "", args); sub(/,? *\)$/, "", args)
        m = args == "" ? 0 : split(args, parts, /, */); k = split(wanted[name, m], w, " ")
        for (i = 1; i <= k; i++) { gsub(/ /, "", parts[w[i]]); if (parts[w[i]] ~ /^[0-9][0-9A-Za-z_]*$/) add("1c.5") }
        s = substr(s, 1, RSTART - 1) "x" substr(s, RSTART + RLENGTH)
    }
}
function tests(   s, name, op, value, key, all, k, i, tell) {  # 1c.3
    s = body; split("", told); split("", tell); all = ""
    while (match(s, /[a-z][A-Za-z0-9_.]* (==|!=|<|<=|>|>=) [0-9][0-9A-Za-z_]*/)) {
        key = substr(s, RSTART, RLENGTH); op = substr(s, RSTART > 1 ? RSTART - 1 : 1, 1); s = substr(s, RSTART + RLENGTH)
        if (op ~ /[A-Za-z0-9_.\])]/) continue
        name = key; sub(/ .*/, "", name); value = key; sub(/.* /, "", value); op = key; sub(/^[^ ]* /, "", op); sub(/ .*/, "", op)
        k = name; sub(/.*\./, "", k)
        if (op != "==" && !is_case(k)) continue
        if (!((name, value) in told)) { told[name, value] = 1; told[name]++; if (told[name] == 1) all = all " " name; tell[name] = is_case(k) }
    }
    k = split(all, names, " ")
    for (i = 1; i <= k; i++) if (told[names[i]] > 1 || tell[names[i]]) add("1c.3")
}
function loops(   i, j, line, test, block, m, parts, name, found, t) {  # 3
    for (i = 1; i <= rows; i++) {
        line = row[i]
        if (line !~ /^ *while .*\{$/) continue
        test = line; sub(/^ *while /, "", test); sub(/ *\{$/, "", test); block = ""
        for (j = i + 1; j <= rows && !(indent(row[j]) == indent(line) && row[j] ~ /^ *\}/); j++) block = block "\n" row[j]
        t = test; gsub(/\.[A-Za-z0-9_.]*(\(\))?|[A-Za-z0-9_:]*\(|[A-Za-z_]*::/, " ", t); m = split(t, parts, /[^A-Za-z0-9_]+/); found = 0
        for (j = 1; j <= m; j++) {
            name = parts[j]
            if (name !~ /^[a-z_]/) continue
            if (block ~ ("[^A-Za-z0-9_.]" name " [-+]= ") || block ~ ("[^A-Za-z0-9_.]" name " = " name " [-+]") ||
                block ~ ("[^A-Za-z0-9_.]" name " = [a-z:_0-9]*(add|sub)[_a-z0-9]*\\(" name "[,)]")) found = 1
            else if (match(block, "let [a-z_]+ = " name " [-+]")) {
                t = substr(block, RSTART + 4, RLENGTH); sub(/ .*/, "", t)
                if (block ~ (" " name " = " t ";")) found = 1
            }
        }
        add(found ? "3a" : "3b")
    }
}
function nothing(   i, j, none, last, line, found, t) {  # 1c.6: a number for nothing
    if (!number(result)) return
    none = "(0|0\\.0|25[456]|NO_[A-Z_]+)"; last = row[rows]; gsub(/^ +| +$/, "", last)
    for (i = 1; i <= rows; i++) {
        line = row[i]
        if (line ~ ("return " none ";")) found = 1
        if (line ~ (" => " none ",?$") && line ~ /NO_/) found = 1
        if (line ~ (" => " none ",?$")) for (j = 1; j <= rows; j++) if (row[j] ~ / => ([^0-9A-Z]|[A-Z][a-z])/) found = 1
        if (line ~ (" else \\{ " none " \\}") && line !~ /\{ [0-9.]+ \} else/) found = 1
        if (line ~ ("^ *" none "$") && row[i - 1] ~ /else \{$/ && row[i - 2] !~ /^ *[0-9.]+$/) found = 1
        if (last ~ /^[a-z_]+$/ && line ~ ("return " last ";")) for (j = i; j >= 1; j--) if (row[j] ~ /^ *while / && has(row[j], last)) found = 1
        if (last ~ ("^" none "$") && line ~ /return / && line !~ /return [0-9][0-9a-zA-Z_.]*;/) found = 1
    }
    if (found) add("1c.6")
}
function done(   i, s, sign, loose, m, w, key, line, count, owner) {  # a function is read
    params = head; sub(/^[^(]*\(/, "", params); result = params; sub(/\)[^)]*$/, "", params)
    sub(/.*\) *(-> *)?/, "", result); sub(/ *\{? *$/, "", result); if (head !~ /->/) result = ""
    gsub(/ +/, " ", params); parameters()
    if (pass == 1) return
    body = ""; count = 0; split("", owner)
    for (i = 1; i <= rows; i++) { body = body "\n" row[i]; if (row[i] ~ /[^ ]/) count++ }
    tests(); loops(); nothing(); s = body; gsub(/\n */, " ", s); gsub(/\( /, "(", s); calls_with_kinds(s)
    for (i = 1; i <= rows; i++) {
        line = row[i]
        if (line ~ /(^|[^a-z_])match .*\{$/) { owner[indent(line)] = i }
        if (line ~ /^ *[0-9][0-9A-Za-z_]*( \| [0-9][0-9A-Za-z_]*)*( if .*)? => / && owner[indent(line) - 4]) { add("1c.2"); owner[indent(line) - 4] = 0 }
        s = line; while (match(s, /refusal::number\(|Refusal::[A-Za-z]+\([0-9]/)) { add("1c.4"); s = substr(s, RSTART + RLENGTH) }
        if (line ~ /(^|[^a-z])let [A-Za-z0-9:]+\([^)]*\) = /) waits = i
        if (waits && i - waits < 6 && line ~ / else \{$/ && row[i + 1] ~ /^ *(return|continue|break)/) { add("1d"); waits = 0 }
        if (line ~ /if let [A-Za-z:]*(Nothing|None|Fault|Missing|Refused).* = .*\{$/ && row[i + 1] ~ /^ *return/) add("1d")
        if (line ~ /^ *[A-Za-z:_]*(Nothing|None|Fault|Missing|Refused)(\([^)]*\))? => /) {
            s = line; sub(/.* => /, "", s)
            if (s ~ /\{$/) for (m = i + 1; indent(row[m]) > indent(line); m++) s = s row[m]
            if (s ~ /Nothing|None|Fault|Missing|Refused|return|refus/) add("1d")
        }
    }
    sign = signs(body); nf++; fcrate[nf] = crate; body2a[nf] = sign; twin[sign]++; if (count > most[sign]) most[sign] = count
    loose = sign; while (gsub(/\([^(){};]*\)/, "_", loose)) ; gsub(/\[[^][{};]*\]/, "~", loose)
    if (sign !~ /<(if|while|for|match)>/) loose = "no" nf
    body2b[nf] = loose; twinb[loose]++; if (count > mostb[loose]) mostb[loose] = count
    m = split(fn, w, "_"); key = ""
    for (i = 1; i <= m; i++) {
        if (w[i] ~ /[^0-9][23]$/) sub(/[23]$/, "", w[i])
        if (w[i] !~ /^(f64|u64|u8|reals?|numbers?|doubles?|words?|coords?)$/) key = key "_" w[i]
    }
    key = crate " " key; name2c[nf] = key; twinc[key]++; if (!((key, fn) in kinds)) { kinds[key, fn] = 1; kindsc[key]++ }
}
function typed(   i, j, key, a, b, c, held, few, flagged) {  # a type is read: its members are in row
    if (pass == 1) return
    if (kind == "struct") {
        key = " "; a = b = c = 0
        for (i = 1; i <= rows; i++) if (row[i] ~ /: /) { key = key row[i] ", "; if (row[i] ~ /: \[/) a++; else b++ }
        gsub(/ +pub /, " ", key); split("", list); j = split(key, list, ", ")
        for (i = 1; i < j; i++) {
            gsub(/^ +| *,* *$/, "", list[i]); split(list[i], one, ": "); gsub(/,/, "", one[2])
            if (j > 2 && (is_flag(one[1]) || one[1] ~ /^(why|fault)$/)) add("1b.1")
            if (is_kind(one[1], one[2], " " key, "")) add("1c.1")
            held = held " " one[1]
        }
        group("fields" held); if (a) group("arrays " a " " b); c = name; sub(/[23]$/, "", c); group("size " crate c)
    } else {
        for (i = 1; i <= rows; i++) if (row[i] ~ /^ *[A-Z]/) {
            a++; if (row[i] !~ /\(/) b++; if (row[i] ~ /Refusal|Error[,)]/) held = 1
            if (row[i] ~ /^ *(Nothing|None|Fault|Missing|Refused)[,(]/) few = 1
            j = gsub(/,/, ",", row[i]); arities[j - (row[i] ~ /\(.*\),$/ ? 0 : 1)]++
            if (name ~ /^Refusal$|Error$/ && row[i] ~ /\(.*[ui](8|16|32|64|size)/) add("1c.4")
        }
        if (a <= 2 && (b == 1 && a == 2 || held) || name ~ /^Maybe/ || few) {
            add("1a"); key = "enum"; for (i = 0; i < 6; i++) key = key " " arities[i] + 0
            group(key)
        }
        split("", arities)
    }
}
function group(key) { members[key] = members[key] " " crate "::" name; size[key]++; held_by[key] = held_by[key] " " crate }
FNR == 1 { crate = FILENAME; sub(/^crates\//, "", crate); sub(/\/.*/, "", crate); inside = 0 }
{ raw = $0; line = clean($0) }
line ~ /^ *ghost use / { next }
!inside && line ~ /^ *(pub )?(const )?(extern "" )?fn [a-z_0-9]+/ {
    fn = line; sub(/^.*fn /, "", fn); sub(/[^A-Za-z0-9_].*/, "", fn); head = line; asks = ""; rows = 0; inside = 1; depth = indent(line); waits = 0
    if (line ~ /\{$/) inside = 2
    next
}
!inside && line ~ /^ *(pub )?(struct|enum) [A-Za-z0-9_]+.*\{$/ {
    kind = line ~ /struct/ ? "struct" : "enum"; name = line; sub(/^.*(struct|enum) /, "", name); sub(/[^A-Za-z0-9_].*/, "", name)
    rows = 0; inside = 3; depth = indent(line); next
}
inside == 1 && line ~ /^ *(requires|ensures)/ { if (raw ~ /requires/) asks = asks raw; next }
inside == 1 && line ~ /^ *where/ { next }
inside == 1 && line ~ /^ *\{$/ { inside = 2; next }
inside == 1 { head = head " " line; if (line ~ /\{$/) inside = 2; next }
inside >= 2 && indent(line) == depth && line ~ /^ *\}/ { if (inside == 2) done(); else typed(); inside = 0; next }
inside >= 2 { row[++rows] = line }
END {
    for (i = 1; i <= nf; i++) {
        crate = fcrate[i]
        if (twin[body2a[i]] > 1 && most[body2a[i]] >= 4) { add("2a"); in2a[body2b[i]]++ }
        if (kindsc[name2c[i]] > 1) add("2c")
    }
    for (i = 1; i <= nf; i++) { crate = fcrate[i]; k = body2b[i]; if (twinb[k] > 1 && mostb[k] >= 4 && in2a[k] < twinb[k]) add("2b") }
    for (k in size) if (size[k] > 1 && !(members[k] in listed)) {
        listed[members[k]] = 1; m = split(held_by[k], w, " "); for (i = 1; i <= m; i++) { crate = w[i]; add("2d") }
    }
    m = split("1a 1b.1 1b.2 1c.1 1c.2 1c.3 1c.4 1c.5 1c.6 1d 2a 2b 2c 2d 3a 3b", w, " ")
    print "rule    places  crates"
    for (i = 1; i <= m; i++) printf "%-7s %6d  %6d\n", w[i], n[w[i]], crates[w[i]]
}' pass=1 $files pass=2 $files
