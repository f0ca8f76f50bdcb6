# The exported functions of crates/vizzaluna/src/lib.rt as prototypes, one a line: in C with -v lang=c, in Rust with -v lang=rust. A slice is
# a pointer and a count.
function pointer(mutable, entry) {
    if (lang == "c") return (mutable ? "" : "const ") entry " *"
    return (mutable ? "*mut " : "*const ") entry
}
function parameter(name, type) { return lang == "c" ? type (type ~ /\*$/ ? "" : " ") name : name ": " type }
function entry(type) {
    if (type == "u64") return lang == "c" ? "uint64_t" : "u64"
    if (type == "[u64; CELL_WORDS]") return lang == "c" ? "vizzaluna_cell" : "Cell"
    if (type == "[u64; WIDTH]") return lang == "c" ? "vizzaluna_slot" : "Slot"
    if (type == "[u64; REPORT_WORDS]") return lang == "c" ? "vizzaluna_report" : "Report"
    if (type == "Slot") return lang == "c" ? "vizzaluna_slot_record" : "SlotRecord"
    return "unknown(" type ")"
}
function translated(part,    at, name, type, mutable) {
    at = index(part, ": ")
    name = substr(part, 1, at - 1)
    type = substr(part, at + 2)
    if (type !~ /^&/) return parameter(name, entry(type))
    mutable = sub(/^&mut /, "", type)
    sub(/^&/, "", type)
    if (type !~ /^\[.*\]$/) return parameter(name, pointer(mutable, entry(type)))
    type = substr(type, 2, length(type) - 2)
    return parameter(name, pointer(mutable, entry(type))) ", " parameter(name "_count", lang == "c" ? "size_t" : "usize")
}
function told(    at, name, all, count, i, parts, made) {
    sub(/^pub extern "C" fn /, "", text)
    at = index(text, "(")
    name = substr(text, 1, at - 1)
    all = substr(text, at + 1)
    sub(/\) -> u64.*/, "", all)
    sub(/, *$/, "", all)
    count = split(all, parts, /, +/)
    for (i = 1; i <= count; i++) made = made (i > 1 ? ", " : "") translated(parts[i])
    print lang == "c" ? "uint64_t " name "(" made ");" : "pub fn " name "(" made ") -> u64;"
}
/^pub extern "C" fn / { text = ""; reading = 1 }
reading {
    line = $0
    gsub(/^ +/, "", line)
    text = text (text ~ /,$/ ? " " : "") line
    if (line ~ /\) -> u64/) { reading = 0; told() }
}
