# Writes a program that reaches each call of the library, so that its module has them all. It is never run.
/^pub extern "C" fn / {
    module = FILENAME
    sub(/.*\//, "", module)
    sub(/\.rt$/, "", module)
    head = ""
    reading = 1
}
reading { head = head " " $0 }
reading && /\)/ {
    reading = 0
    name = head
    sub(/.* fn /, "", name)
    sub(/\(.*/, "", name)
    words = head
    sub(/^[^(]*\(/, "", words)
    sub(/\).*/, "", words)
    count = split(words, part, ",")
    given = ""
    for (k = 1; k <= count; k++) {
        type = part[k]
        if (type !~ /:/) continue
        sub(/^[^:]*: */, "", type)
        sub(/ *$/, "", type)
        given = given (given == "" ? "" : ", ") (type in value ? value[type] : "1")
    }
    calls = calls "    let _ = crate::" module "::" name "(" given ");\n"
}
BEGIN {
    value["Global"] = "alloc"
    value["&[u8]"] = "&bytes"
    value["&mut [u8]"] = "&mut out"
    value["&mut usize"] = "&mut needed"
    value["&mut Handle"] = "&mut handle"
    value["&mut Shown"] = "&mut shown"
    value["&mut Place"] = "&mut place"
    value["&mut u64"] = "&mut steps"
    value["&mut u16"] = "&mut word"
    value["bool"] = "true"
}
END {
    print "fn main(rt: HostRuntime) {\n    let alloc = rt.alloc();\n    let mut handle = crate::handle::none();"
    print "    let bytes: [u8; 1] = [0];\n    let mut out: [u8; 1] = [0];\n    let mut needed: usize = 0;"
    print "    let mut steps: u64 = 0;\n    let mut word: u16 = 0;"
    print "    let mut shown = crate::shows::Shown {"
    print "        steps: 0, status: 0, ipc: 0, sp: 0, mp: 0, base: 0, np: 0, seg: 0, jtab: 0, ioresult: 0,\n    };"
    print "    let mut place = crate::lines::Place { segment: 0, procedure: 0, offset: 0 };"
    printf "%s}\n", calls
}
