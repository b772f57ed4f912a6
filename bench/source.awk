# A source of about `size` bytes.
# Procedures of one shape each, and a `main` that returns `last`: deep expressions (`deep`), chains of else if (`chain`) or
# statements (`many`), of about 1,200 bytes each; long procedures of 470 statements (`long`); 3,900 empty statements
# (`empty`); or blocks that are nested 60 deep (`nest`).
# Or one `main` that declares one name after another: names that are counted (`names`), or those of the file `file`
# (`collide`).
function chain(n, i, t) { t = "return 0;"; for (i = 0; i < n; i++) t = "if (a == " i ") a = a + 1; else " t; return t }
function deep(n, i, t) { t = "a"; for (i = 0; i < n; i++) t = "(" t " + " i ")"; return t }
function many(n, i, t) { t = ""; for (i = 0; i < n; i++) t = t "a = a * 3 - " i "; "; return t "return a;" }
function times(n, s, i, t) { t = ""; for (i = 0; i < n; i++) t = t s; return t }
function next_name(i, name) {
    if (shape == "names") return sprintf("name%04d", i)
    return (getline name < file) > 0 ? name : ""
}
function declares(i, t, name) {
    t = "int main() { int first"
    for (i = 0; length(t) < size - 30 && (name = next_name(i)) != ""; i++) t = t ", " name
    print t "; return 0; }"
}
BEGIN {
    if (shape == "names" || shape == "collide") { declares(); exit }
    if (shape == "chain") body = chain(40)
    if (shape == "deep") body = "a = " deep(90) "; return " deep(90) ";"
    if (shape == "many") body = many(70)
    if (shape == "long") body = many(470)
    if (shape == "empty") body = times(3900, ";") " return a;"
    if (shape == "nest") body = times(32, times(60, "{") ";" times(60, "}")) " return a;"
    head = 0; total = 0
    while (total < size - length(body) - 200 && head < 62) {
        line = "int f" head "(int a) { " body " }"
        print line; total += length(line) + 1; head++
    }
    pad = size - total - 40
    print "/* " sprintf("%" pad "s", "") " */"
    print "int main() { return " last "; }"
}
