# Writes, from include/catalogue.h, the calls that it declares for a processor whose size_t has 32 bits. A slice's length has 64 bits in the proved
# library on every processor; targets/retarget gives its calls the names words_NAME.
BEGIN {
    print "/* Written by wasm/shims.awk from catalogue.h. */"
    print "#include \"catalogue.h\"\n"
    print "_Static_assert(sizeof(size_t) == 4, \"a shim is for 32 bits\");"
}

# A declaration goes on to its semicolon.
/^uint64_t catalogue_/ { declared = "" ; open = 1 }
open { declared = declared " " $0 }
open && /;$/ { open = 0; shim(declared) }

function shim(text,    name, words, count, parts, i, type, handed, wide) {
    gsub(/ +/, " ", text)
    name = text
    sub(/^ uint64_t catalogue_/, "", name)
    sub(/\(.*/, "", name)
    words = text
    sub(/^[^(]*\(/, "", words)
    sub(/\);$/, "", words)
    count = words == "void" ? 0 : split(words, parts, /, /)
    handed = ""
    wide = ""
    for (i = 1; i <= count; i++) {
        type = parts[i]
        sub(/[a-z_]+$/, "", type)
        handed = handed (i > 1 ? ", " : "") substr(parts[i], length(type) + 1)
        wide = wide (i > 1 ? ", " : "") (type == "size_t " ? "uint64_t " substr(parts[i], length(type) + 1) : parts[i])
    }
    printf "\nuint64_t words_%s(%s);\n\nuint64_t catalogue_%s(%s)\n{\n    return words_%s(%s);\n}\n", name, count == 0 ? "void" : wide, name, words, name, handed
}
