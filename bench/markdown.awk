# The tables of docs/PERFORMANCE.md from the counts of bench/table. Only the shapes that have every operation are in them.
# Ours of a rebuild is without the clearing of the workspace: what rebuild takes more for one twice as long is that.
BEGIN { FS = "\t" }
FNR == 1 { next }
{
    z = $1 "," $2 "," $3
    if ($4 == "small_write" && !(z in shape)) { order[++shapes] = z; shape[z] = "(" $1 ", " $2 ", " $3 ")" }
    count[z, $4, $5] = $7; bytes[z, $4] = $6
}
function clearing(z) { return count[z, "rebuild_one_long", "ours"] - count[z, "rebuild_one", "ours"] }
function ours(z, op) { return count[z, op, "ours"] - (op ~ /^rebuild/ ? clearing(z) : 0) }
function ratio(z, op) { return ours(z, op) / count[z, op, "c"] }
function a_byte(z, op, instructions) { return sprintf("%.3f", instructions / bytes[z, op]) }

# A ratio above the goal stands in bold: 1 for encode, 1.10 for check, rebuild and fill, none for the rest.
function goal(op) { return op == "encode" ? 1 : op ~ /^(check|rebuild|fill)/ ? 1.1 : 1000 }
function shown(z, op,    r) { r = ratio(z, op); return sprintf(r > goal(op) ? "**%.3f**" : "%.3f", r) }
function three(z, op) { return a_byte(z, op, ours(z, op)) " | " a_byte(z, op, count[z, op, "c"]) " | " shown(z, op) }
function four(z, op) { return a_byte(z, op, count[z, op, "ours"]) " | " three(z, op) }

function head(title, columns,    k, rule) {
    print "\n" title "\n"
    print "| (m, n, w) | " columns " |"
    rule = "|---|"
    for (k = gsub(/\|/, "|", columns); k >= 0; k--) rule = rule "---|"
    print rule
}
function table(title, columns, kind, ops,    i, k, many, op, line) {
    head(title, columns)
    many = split(ops, op, " ")
    for (i = 1; i <= shapes; i++) {
        line = "| " shape[order[i]]
        for (k = 1; k <= many; k++)
            line = line " | " (kind == 1 ? shown(order[i], op[k]) : kind == 3 ? three(order[i], op[k]) : four(order[i], op[k]))
        print line " |"
    }
}
function clearings(    i, z) {
    head("Clearing a workspace of 2·m·w bytes, instructions.", "bytes | ours | C, blocks | C, memset")
    for (i = 1; i <= shapes; i++) {
        z = order[i]
        print "| " shape[z] " | " bytes[z, "clear"] " | " clearing(z) " | " count[z, "clear", "c"] " | " count[z, "memset", "c"] " |"
    }
}

# From a call at w = 1024 and at 512, which differ by four blocks a chain: what a block takes, and what comes beside the blocks.
function parted(z, op, who, chains,    long, short) {
    long = who == "c" ? count[z ",1024", op, who] : ours(z ",1024", op)
    short = who == "c" ? count[z ",512", op, who] : ours(z ",512", op)
    block[who] = sprintf("%.1f", (long - short) / 4 / chains)
    beside[who] = sprintf("%.1f", (2 * short - long) / chains)
}
function parts(    i, k, many, op, pair, of) {
    many = split("encode check rebuild_two fill", op, " ")
    split("2,12 3,16 4,16", pair, " ")
    if (!((pair[3] ",512", "fill", "ours") in count)) return
    head("Blocks and what comes beside them, instructions for a chain that is set, tested or solved.",
        "operation | 128 bytes of it, ours | C | beside, ours | C")
    for (i = 1; i <= 3; i++)
        for (k = 1; k <= many; k++) {
            split(pair[i], of, ",")
            parted(pair[i], op[k], "ours", op[k] == "fill" ? of[1] : of[2])
            parted(pair[i], op[k], "c", op[k] == "fill" ? of[1] : of[2])
            print "| (" of[1] ", " of[2] ", 512 and 1024) | " title(op[k]) " | " block["ours"] " | " block["c"] " | " beside["ours"] " | " beside["c"] " |"
        }
}
function title(op) { sub(/_/, " of ", op); return op }
END {
    table("Ratios, ours to C; in bold where above the goal.", "encode | check | locate, sound | one column | several | small write | rebuild of one | of two | fill", 1,
        "encode check locate_sound locate_one locate_several small_write rebuild_one rebuild_two fill")
    table("Encode and check, instructions a byte of the stripe.", "encode, ours | C | ratio | check, ours | C | ratio", 3, "encode check")
    table("Locate, instructions a byte of the stripe.", "sound, ours | C | ratio | one column, ours | C | ratio | several, ours | C | ratio", 3,
        "locate_sound locate_one locate_several")
    table("Small write, instructions a byte of the symbol.", "ours | C | ratio", 3, "small_write")
    table("Rebuild, instructions a byte of the lost columns; the ratio is without the clearing.",
        "one, ours | without clearing | C | ratio | two, ours | without clearing | C | ratio", 4, "rebuild_one rebuild_two")
    table("Fill of a single lost column, instructions a byte of it.", "ours | C | ratio", 3, "fill")
    table("Other columns and other walks, ratios.", "rebuild of column 0 | of two, walk 2 | walk m-1 | walk m | fill of column 0", 1,
        "rebuild_one_0 rebuild_two_2 rebuild_two_m-1 rebuild_two_m fill_0")
    clearings()
    parts()
}
