"""Python's PyMySQL (Debian: python3-pymysql)."""

import sys

import pymysql

port, first, count = map(int, sys.argv[1:])
db = pymysql.connect(host="127.0.0.1", port=port, user="", charset="utf8", autocommit=None)
cursor = db.cursor()


def add(number):
    values = (first + number, f"pymysql n{number}", f'it\'s "said" \\ чай\n{number}', -number)
    cursor.execute("INSERT INTO rt (id, title, content, price) VALUES (%s, %s, %s, %s)", values)


def found(query):
    return cursor.execute("SELECT id FROM rt WHERE MATCH(%s) LIMIT 1000", (query,))


def expect(what, is_now, should):
    if is_now != should:
        sys.exit(f"pymysql: {what}: {is_now} for {should}")


for one in range(1, count + 1):
    add(one)
    if one % 10 == 0:
        expect(f"found after {one}", found("pymysql"), one)
expect("quoted texts", found('pymysql "it s said чай"'), count)

db.begin()
add(count + 1)
db.rollback()
db.begin()
add(count + 1)
add(count + 2)
expect("found before the commit", found("pymysql"), count)
db.commit()
expect("found after the commit", found("pymysql"), count + 2)

try:
    add(1)
    sys.exit("pymysql: a duplicate was added")
except pymysql.MySQLError as refused:
    expect("the refusal", (refused.args[0], refused.args[1][:12]), (1064, "duplicate id"))

cursor.execute("SELECT id, price FROM rt WHERE MATCH('pymysql') ORDER BY price ASC LIMIT 1")
expect("the least price", cursor.fetchone(), (first + count + 2, -count - 2))

expect("the page", cursor.execute("SELECT id FROM rt WHERE MATCH('pymysql') LIMIT 1 FACET gid"), 1)
cursor.nextset()
expect("the facet", cursor.fetchall(), ((0, count + 2),))

expect("deleted", cursor.execute("DELETE FROM rt WHERE id = %s", (first + count + 2,)), 1)
expect("found after the DELETE", found("pymysql"), count + 1)
print(f"pymysql: {count + 1} documents")
db.close()
