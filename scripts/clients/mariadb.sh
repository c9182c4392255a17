# The command line of MariaDB (Debian: mariadb-client).
set -eu
port=$1 first=$2 count=$3

run() { mariadb -h 127.0.0.1 -P "$port" --batch --skip-column-names; }

add() { echo "INSERT INTO rt (id, title, content, price) VALUES ($((first + $1)), 'mariadb n$1', 'it\\'s \"said\" \\\\ чай\\n$1', -$1);"; }

found() { echo "SELECT id FROM rt WHERE MATCH('$1') LIMIT 1000;"; }

expect() {
    if [ "$2" != "$3" ]; then
        echo "mariadb: $1: $2 for $3" >&2
        exit 1
    fi
}

for number in $(seq "$count"); do add "$number"; done | run
expect "found" "$(found mariadb | run | wc -l)" "$count"
expect "quoted texts" "$(found 'mariadb "it s said чай"' | run | wc -l)" "$count"

{ echo "BEGIN;"; add $((count + 1)); echo "ROLLBACK;"; } | run
before=$({ echo "BEGIN;"; add $((count + 1)); add $((count + 2)); found mariadb; echo "COMMIT;"; } | run | wc -l)
expect "found before the commit" "$before" "$count"
expect "found after the commit" "$(found mariadb | run | wc -l)" $((count + 2))

refused=$(add 1 | run 2>&1 | grep '^ERROR' | cut -d ' ' -f 1-8)
expect "the refusal" "$refused" "ERROR 1064 (42000) at line 1: duplicate id"

least=$(echo "SELECT id, price FROM rt WHERE MATCH('mariadb') ORDER BY price ASC LIMIT 1;" | run | tr '\t' ' ')
expect "the least price" "$least" "$((first + count + 2)) -$((count + 2))"

page=$(echo "SELECT id FROM rt WHERE MATCH('mariadb') ORDER BY id ASC LIMIT 1 FACET gid;" | run | tr '\t\n' '  ')
expect "the page and the facet" "$page" "$((first + 1)) 0 $((count + 2)) "

echo "DELETE FROM rt WHERE id = $((first + count + 2));" | run
expect "found after the DELETE" "$(found mariadb | run | wc -l)" $((count + 1))
echo "mariadb: $((count + 1)) documents"
