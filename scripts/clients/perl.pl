# Perl's DBI with DBD::mysql (Debian: libdbd-mysql-perl).
use strict;
use warnings;
use utf8;
use DBI;

my ($port, $first, $count) = @ARGV;
my $db = DBI->connect("DBI:mysql:host=127.0.0.1;port=$port", "", "",
    { RaiseError => 1, PrintError => 0, AutoCommit => 1, mysql_enable_utf8 => 1, mysql_server_prepare => 0 });

my $insert = $db->prepare("INSERT INTO rt (id, title, content, price) VALUES (?, ?, ?, ?)");

sub add {
    my ($number) = @_;
    $insert->bind_param(1, $first + $number, DBI::SQL_BIGINT);
    $insert->bind_param(2, "perl n$number");
    $insert->bind_param(3, "it's \"said\" \\ чай\n$number");
    $insert->bind_param(4, -$number, DBI::SQL_BIGINT);
    $insert->execute();
}

sub found {
    my ($query) = @_;
    return scalar @{ $db->selectcol_arrayref("SELECT id FROM rt WHERE MATCH(?) LIMIT 1000", undef, $query) };
}

sub expect {
    my ($what, $is, $should) = @_;
    die "perl: $what: $is for $should\n" if $is ne $should;
}

for my $number (1 .. $count) {
    add($number);
    expect("found after $number", found("perl"), $number) if $number % 10 == 0;
}
expect("quoted texts", found('perl "it s said чай"'), $count);

$db->begin_work;
add($count + 1);
$db->rollback;
$db->begin_work;
add($count + 1);
add($count + 2);
expect("found before the commit", found("perl"), $count);
$db->commit;
expect("found after the commit", found("perl"), $count + 2);

eval { add(1) };
expect("the refusal's number", $db->err, 1064);
expect("the refusal's text", $db->errstr =~ /duplicate id/ ? "duplicate id" : $db->errstr, "duplicate id");

my ($id, $price) = $db->selectrow_array("SELECT id, price FROM rt WHERE MATCH('perl') ORDER BY price ASC LIMIT 1");
expect("the least price", "$id $price", join " ", $first + $count + 2, -$count - 2);

my $page = $db->prepare("SELECT id FROM rt WHERE MATCH('perl') LIMIT 1 FACET gid");
$page->execute();
expect("the page", scalar @{ $page->fetchall_arrayref }, 1);
$page->more_results;
expect("the facet", join(" ", @{ $page->fetchrow_arrayref }), "0 " . ($count + 2));
$page->finish;

my $delete = $db->prepare("DELETE FROM rt WHERE id = ?");
$delete->bind_param(1, $first + $count + 2, DBI::SQL_BIGINT);
expect("deleted", $delete->execute(), 1);
expect("found after the DELETE", found("perl"), $count + 1);
print "perl: ", $count + 1, " documents\n";
$db->disconnect;
