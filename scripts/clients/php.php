<?php
// PHP's mysqli (Debian: php-cli, php-mysql).
[, $port, $first, $count] = $argv;
$db = new mysqli('127.0.0.1', '', '', '', (int) $port);
$db->set_charset('utf8');

function add(mysqli $db, int $first, int $number): void
{
    $content = $db->real_escape_string("it's \"said\" \\ чай\n$number");
    $db->query("INSERT INTO rt (id, title, content, price) VALUES (" . ($first + $number) . ", 'php n$number', '$content', -$number)");
}

function found(mysqli $db, string $query): int
{
    $query = $db->real_escape_string($query);
    return $db->query("SELECT id FROM rt WHERE MATCH('$query') LIMIT 1000")->num_rows;
}

function expect(string $what, string $is, string $should): void
{
    if ($is !== $should) {
        fwrite(STDERR, "php: $what: $is for $should\n");
        exit(1);
    }
}

for ($number = 1; $number <= $count; $number++) {
    add($db, $first, $number);
    if ($number % 10 == 0) {
        expect("found after $number", found($db, 'php'), $number);
    }
}
expect('quoted texts', found($db, 'php "it s said чай"'), $count);

$db->begin_transaction();
add($db, $first, $count + 1);
$db->rollback();
$db->begin_transaction();
add($db, $first, $count + 1);
add($db, $first, $count + 2);
expect('found before the commit', found($db, 'php'), $count);
$db->commit();
expect('found after the commit', found($db, 'php'), $count + 2);

try {
    add($db, $first, 1);
    expect('a duplicate', 'added', 'refused');
} catch (mysqli_sql_exception $refused) {
    expect("the refusal's number", $refused->getCode(), 1064);
    expect("the refusal's text", substr($refused->getMessage(), 0, 12), 'duplicate id');
}

$row = $db->query("SELECT id, price FROM rt WHERE MATCH('php') ORDER BY price ASC LIMIT 1")->fetch_assoc();
expect('the least price', "$row[id] $row[price]", ($first + $count + 2) . ' -' . ($count + 2));

$page = $db->query("SELECT id FROM rt WHERE MATCH('php') LIMIT 1 FACET gid");
expect('the page', $page->num_rows, 1);
$db->next_result();
expect('the facet', implode(' ', $db->store_result()->fetch_row()), '0 ' . ($count + 2));

$db->query('DELETE FROM rt WHERE id = ' . ($first + $count + 2));
expect('deleted', $db->affected_rows, 1);
expect('found after the DELETE', found($db, 'php'), $count + 1);
echo 'php: ', $count + 1, " documents\n";
$db->close();
