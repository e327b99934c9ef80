# Fresh gates for tests/abc, from a seed: in the folder `to`, for each gate, a file that ABC reads by itself (a Verilog
# module with all parentheses, a PLA file or a network), and a line "number inputs kind file word" on standard output,
# where the word is what ./gate is handed.
#   awk -v seed=1 -v count=500 -v to=FOLDER -f tests/fresh.awk

function below(n) { return int(rand() * n) }

function letter(j) { return substr("abcdefghijklmnop", j + 1, 1) }

function literal(j) { return (below(3) ? "" : "!") letter(j) }

function operator() { return substr("&|^", below(3) + 1, 1) }

# Any formula over n letters, so many levels deep.
function formula(n, levels,    left) {
    if (levels == 0 || below(6) == 0) return literal(below(n))
    left = formula(n, levels - 1)
    return (below(5) ? "" : "!") "(" left operator() formula(n, levels - 1) ")"
}

# A formula that reads each letter from the first to the last once.
function tree(from, to,    at, left) {
    if (from == to) return literal(from)
    at = from + below(to - from)
    left = tree(from, at)
    return "(" left operator() tree(at + 1, to) ")"
}

# All of n letters joined alike.
function joined(n, by,    j, text) {
    text = literal(0)
    for (j = 1; j < n; j++) text = "(" text by literal(j) ")"
    return text
}

# The letters from `first` on pick one of the letters before it.
function selector(s,    data, i, j, text, term) {
    data = 2 ^ s
    for (i = 0; i < data; i++) {
        term = letter(i)
        for (j = 0; j < s; j++) term = "(" term "&" (int(i / 2 ^ j) % 2 ? "" : "!") letter(data + j) ")"
        text = i ? "(" text "|" term ")" : term
    }
    return text
}

# Whether the number in the first m letters is greater than, or equal to, that in the next m.
function compared(m, equal,    j, text, same, greater) {
    text = equal ? "1" : "0"
    for (j = 0; j < m; j++) {
        same = "!(" letter(j) "^" letter(m + j) ")"
        greater = "(" letter(j) "&!" letter(m + j) ")"
        text = equal ? "(" same "&" text ")" : "(" greater "|(" same "&" text "))"
    }
    return text
}

function inputs(n, by,    j, text) {
    for (j = 0; j < n; j++) text = text (j ? by : "") letter(j)
    return text
}

function hand_over(n, kind, file, word) { print number, n, kind, file, word }

function give_formula(n, kind, text,    file, verilog) {
    file = number ".v"
    verilog = text
    gsub("!", "~", verilog)
    gsub("0", "1'b0", verilog)
    gsub(/&1\)/, "\\&1'b1)", verilog)
    print "module top(" inputs(n, ", ") ", gate);\n  input " inputs(n, ", ") ";" > (to "/" file)
    print "  output gate;\n  assign gate = " verilog ";\nendmodule" > (to "/" file)
    close(to "/" file)
    hand_over(n, kind, file, text)
}

# Rows for every choice of t of n inputs: at least t of them.
function choose(n, t, row, file) {
    if (t > n - length(row)) return
    if (length(row) == n) { print row " 1" > file; return }
    if (t) choose(n, t - 1, row "1", file)
    choose(n, t, row "-", file)
}

function give_threshold(n, t,    file) {
    file = number ".pla"
    print ".i " n "\n.o 1\n.ilb " inputs(n, " ") "\n.ob gate" > (to "/" file)
    choose(n, t, "", to "/" file)
    print ".e" > (to "/" file)
    close(to "/" file)
    hand_over(n, "threshold", file, "./" file)
}

# A chain of cells, each with some inputs of its own and what the last one gave, with random rows.
function give_planted(n, most,    file, at, cell, name, before, k, reads, x, j, row) {
    file = number ".blif"
    print ".model planted\n.inputs " inputs(n, " ") "\n.outputs gate" > (to "/" file)
    for (at = 0; at < n; cell++) {
        k = 2 + below(most - 2)
        if (k > n - at) k = n - at
        reads = ""
        for (j = 0; j < k; j++) reads = reads " " letter(at++)
        name = at < n ? "cell" cell : "gate"
        print ".names" before reads " " name > (to "/" file)
        if (before != "") k++
        for (x = 0; x < 2 ^ k; x++) {
            row = ""
            for (j = 0; j < k; j++) row = row int(x / 2 ^ j) % 2
            # Without a row ABC doesn't take a cell that reads something.
            if (x == 0 || below(2)) print row " 1" > (to "/" file)
        }
        before = " " name
    }
    print ".end" > (to "/" file)
    close(to "/" file)
    hand_over(n, "planted", file, "./" file)
}

BEGIN {
    srand(seed)
    for (number = 0; number < count; number++) {
        kind = number % 8
        if (kind == 0) { n = 3 + below(7); give_formula(n, "formula", formula(n, 4)) }
        if (kind == 1) { n = 2 + below(15); give_formula(n, "tree", tree(0, n - 1)) }
        if (kind == 2) give_planted(4 + below(13), 5)
        if (kind == 3) { n = 2 + below(15); give_formula(n, "joined", joined(n, operator())) }
        if (kind == 4) { n = 3 + below(7); give_threshold(n, 1 + below(n)) }
        if (kind == 5) { s = 1 + below(3); give_formula(2 ^ s + s, "selector", selector(s)) }
        if (kind == 6) { m = 1 + below(8); give_formula(2 * m, "comparator", compared(m, below(2))) }
        if (kind == 7) { n = 8 + below(9); give_formula(n, "formula", formula(n, 5)) }
    }
}
