#!/usr/bin/env python3
"""Compares what `table_tool csv` prints of tables with what a model in Python reads in their files.

    bench/csv_beside_python.py TABLE_TOOL FILE.DBF[,FILE.DBT] ..

The model reads the fields, the records and the memos by the published layout. The text is read by Python's own module `csv`.
A line is printed for each table; the status is 1 where one differs.
"""
import csv
import io
import struct
import subprocess
import sys


def fields_of(dbf):
    """The fields: name, kind, width."""
    fields, at = [], 32
    while dbf[at] != 0x0D:
        name = dbf[at:at + 11].split(b"\0")[0]
        fields.append((name, chr(dbf[at + 11]), dbf[at + 16]))
        at += 32
    return fields


def memo_of(dbt, cell):
    """The text of the block that a memo's cell names."""
    number = cell.strip()
    if not number:
        return b""
    text = dbt[512 * int(number):]
    return text[:text.find(b"\x1a")] if b"\x1a" in text else text


def value_of(kind, cell, dbt):
    """What stands of a cell in CSV."""
    if kind == "M":
        return memo_of(dbt, cell)
    if kind == "N":
        return cell.strip(b" ")
    return cell.rstrip(b" ")


def rows_of(dbf, dbt):
    """The line of headings, and a line for each record, with the column of marks."""
    fields = fields_of(dbf)
    count, header, length = struct.unpack_from("<IHH", dbf, 4)
    rows = [[name for name, _, _ in fields] + [b"deleted"]]
    for number in range(count):
        record = dbf[header + number * length:header + (number + 1) * length]
        row, at = [], 1
        for _, kind, width in fields:
            row.append(value_of(kind, record[at:at + width], dbt))
            at += width
        rows.append(row + [b"true" if record[:1] == b"*" else b"false"])
    return rows


def printed_rows(tool, dbf, dbt):
    """The rows that Python's `csv` reads in what the program prints."""
    words = [tool, "csv", dbf, "--deleted", "--deleted-column"] + (["--memo", dbt] if dbt else [])
    text = subprocess.run(words, check=True, capture_output=True).stdout
    lines = io.StringIO(text.decode("latin-1"), newline="")
    return [[cell.encode("latin-1") for cell in row] for row in csv.reader(lines, strict=True)]


def main():
    if len(sys.argv) < 3:
        sys.exit(__doc__)
    differ = False
    for paths in sys.argv[2:]:
        dbf, _, dbt = paths.partition(",")
        with open(dbf, "rb") as file:
            table = file.read()
        memos = b""
        if dbt:
            with open(dbt, "rb") as file:
                memos = file.read()
        wanted, printed = rows_of(table, memos), printed_rows(sys.argv[1], dbf, dbt)
        same = wanted == printed
        differ = differ or not same
        print(f"{dbf}: {len(wanted) - 1} records, {len(wanted[0])} columns: {'the same' if same else 'DIFFERENT'}")
        for number, (want, have) in enumerate(zip(wanted, printed)):
            if want != have:
                print(f"  line {number}: {want} in the file, {have} in the text")
                break
    sys.exit(1 if differ else 0)


if __name__ == "__main__":
    main()
