# Sums a count by part of the second model. Input: address, count, function, file:line. Inlined functions keep their names.
# names: the line of second_replay.c that compares a line's name.
{
    line = $4
    sub(/.*:/, "", line)
    if ($3 == "read_line")
        part = line + 0 <= names + 1 ? "names" : "numbers"
    else if ($3 == "read_record")
        part = "reading: from line to line"
    else if ($3 ~ /^(write_line|write_answer|digits|line_length|answer_length)$/)
        part = "answer"
    else if ($3 ~ /_replay$|^answer_fits$|^write_word$/)
        part = "loop and room"
    else if ($3 == "well_formed")
        part = "step: is the state well formed"
    else
        part = "step: the rest"
    sum[part] += $2
}
END {
    n = split("names|numbers|reading: from line to line|answer|loop and room|step: is the state well formed|step: the rest", order, "|")
    for (i = 1; i <= n; i++)
        print order[i] "\t" sum[order[i]] + 0
}
