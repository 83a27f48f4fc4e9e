# The trials of digits: files as arguments of ./multiply, and ./digits. Sourced by run.

# rows NAME TEXT: a file of digits, in the folder at hand.
rows() { printf '%b' "$2" >"$1"; }

products() {
    mkdir "$tree/some files" && cd "$tree/some files" || exit 1
    rows a '1 2 0\n0 2 1\n' && rows b '1 0\n2 1\n1 1\n' && rows wide '2\n' && rows 'c d' '1\n2\n' && rows blank '\n'
    printf '%0129d\n' 0 >row129
    printf '%01025d\n' 0 >row1025
    input=/dev/null
    # 1*1 + 2*2 + 0*1 = 5, 1*0 + 2*1 + 0*1 = 2; 0*1 + 2*2 + 1*1 = 5, 0*0 + 2*1 + 1*1 = 3: modulo 3 these are 2 2 and 2 0.
    try 'two files of digits' 0 $'2 2\n2 0\n# 7 row steps\n' '' ../multiply a b
    sed -n '/^    printf /,/^    \.\/multiply a b$/s/^    //p' "$root/README.md" >"$tree/readme"
    try "README's lines" 0 $'2 2\n2 0\n# 7 row steps\n' '' bash -c 'cd .. && rm -f a b && . ./readme'
    # A row of 1 2 1 2 adds up to 6, so that the product is 0. Width 1 quotes least: four blocks, and in each one table step and one step for each row.
    sed -n '/^    yes 1212 /s/^    //p' "$root/README.md" >"$tree/readme"
    try "README's dearest plan" 0 $'0 0 0 0\n0 0 0 0\n0 0 0 0\n0 0 0 0\n# 20 row steps\n' '' bash -c 'cd .. && . ./readme'
    # One block of width 1: one table step; then row 1 adds and row 2 subtracts. 1*2 = 2, 2*2 = 4 = 1.
    try 'a name with a space' 0 $'2\n1\n# 3 row steps\n' '' ../multiply 'c d' wide
    try 'no columns' 0 $'\n\n# 3 row steps\n' '' ../multiply 'c d' blank
    try 'nothing' 0 $'# 0 row steps\n' '' ../multiply /dev/null /dev/null
    try "A's columns aren't B's rows" 1 $'refused 02\n' "refused 02: A's columns aren't B's rows" ../multiply a a
    try '129 columns' 1 $'refused 0b\n' 'refused 0b: *128*' ../multiply wide row129
    try '1,025 columns' 1 $'refused 01\n' 'refused 01: *1,024*' ../multiply wide row1025
    input=b
    try 'digits from standard input' 0 $'2 2\n2 0\n# 7 row steps\n' '' ../multiply a -
    input=/dev/null
    try 'digits that cannot be read' 2 '' '*a b: line 1, column 2: *' bash -c 'printf "1x\n" >"a b" && ../multiply "a b" b'
    try 'a file that is not there' 2 '' '*none: No such file*' ../multiply a none
    printf 'hello\n' >text
    input=text
    try 'a refusal in text' 1 $'refused 0a\n' '' ../multiply
}

there_and_back() {
    local two=$'00020002\n00000000000000030000000000000002\n00000000000000020000000000000000\n' form
    cd "$tree/some files" || exit 1
    input=/dev/null
    try 'to text' 0 "$(cat "$sample")"$'\n' '' ../digits to-text a b
    input=$sample
    try 'to digits' 0 $'# 2 by 3\n1 2 0\n0 2 1\n# 3 by 2\n1 0\n2 1\n1 1\n' '' ../digits to-digits
    # Each is 1 2 / 0 1: unit bits 11 and 10, sign bits 10 and 00.
    for form in '12\n01\n' '1 2\n0 1' '1\t2\r\n0\t1\r\n' ' 1 2 \n# a note, 3\n0 1\n\n \n' '#\n12\n01\n#2\n\r\n'; do
        rows form "$form"
        input=form
        try "digits as $form" 0 "$two" '' ../digits to-text
    done
    # Column 0 is 1 and column 64 is 2: the unit words are 1 and 1, the sign words 0 and 1.
    printf '1%063d2\n' 0 >form
    try '65 columns' 0 $'00010041\n0000000000000001000000000000000100000000000000000000000000000001\n' '' ../digits to-text
    ../digits to-text form >text
    input=text
    try '65 columns back' 0 "1$(printf ' 0%.0s' {1..63}) 2"$'\n' '' ../digits to-digits
    for form in '' '# a note\n'; do
        rows form "$form"
        input=form
        try "no rows, as $form" 0 $'00000000\n' '' ../digits to-text
    done
    rows form '\n\r\n'
    try 'two rows of no columns' 0 $'00020000\n\n\n' '' ../digits to-text
    printf '%s' "$product" >text
    input=text
    try 'what multiply prints' 0 $'2 2\n2 0\n# 7 row steps\n' '' ../digits to-digits
    printf 'refused 05\n' >text
    try 'a refusal' 1 $'refused 05\n' 'refused 05: a cell has sign without unit' ../digits to-digits
    printf '00000005\n' >text
    try 'columns without rows' 0 '' '*0 rows and 5 columns*' ../digits to-digits
}

# refused COMMAND PLACE TEXT: it cannot be read, and the sentence names the place.
refused() {
    rows fault "$3"
    try "$1 of $3" 2 '' "digits: fault: $2" ../digits "$1" fault
}

faults() {
    local row=0000000000000001 none=0000000000000000
    cd "$tree/some files" || exit 1
    input=/dev/null
    refused to-text 'line 3 has 1 digit, and line 1 has 2 digits' '12\n02\n1\n'
    refused to-text 'line 4 has 3 digits, and line 2 has 2 digits' '#\n12\n02\n111\n'
    refused to-text "line 2, column 3: '3' *" '12\n0 3\n'
    refused to-text "line 1, column 2: ',' *" '1,2\n'
    refused to-text "line 1, column 2: '\\\\r' *" '1\r2\n'
    refused to-text 'line 2 is blank*' '12\n\n01\n'
    refused to-text 'line 1 is blank*' '\r\n12\n'
    head -c 65536 /dev/zero | tr '\0' 2 >long
    try '65,536 columns' 2 '' 'digits: long: 65536 columns*65,535' ../digits to-text long
    try '65,536 rows' 2 '' 'digits: standard input: 65536 rows*65,535' bash -c 'yes 2 | head -n 65536 | ../digits to-text'
    refused to-digits 'line 1: the text ends*' ''
    refused to-digits 'line 1 has 7 digits, and a header has 8' '0001000\n'
    refused to-digits "line 1, column 9: '\\\\r' *" '00010001\r\n'
    refused to-digits 'line 2 has 31 digits, and row 1 of 1 *has 32' "00010001\n$none${row#0}\n"
    refused to-digits "line 2, column 17: 'A' *" "00010001\n${row}A${none#0}\n"
    refused to-digits 'line 3: the text ends where row 2 of 2 *' "00020001\n$row$none\n"
    refused to-digits 'line 2 is not ended by byte 10' "00010001\n$row$none"
    refused to-digits 'line 2: a cell has sign without unit' "00010001\n$none$row\n"
    refused to-digits 'line 3: a bit is set beyond the last column' "00020001\n$row$row\n${none%0}2$none\n"
    refused to-digits "line 4, column 1: 'x' *" "00010001\n$row$none\n00000001\nx\n"
}
