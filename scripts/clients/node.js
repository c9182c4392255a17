// Node's mysql (Debian: nodejs, node-mysql).
const mysql = require("mysql");

const [port, first, count] = process.argv.slice(2).map(Number);
const db = mysql.createConnection({ host: "127.0.0.1", port, user: "", charset: "utf8" });

function query(text, values) {
  return new Promise((done, refused) => db.query(text, values, (error, result) => (error ? refused(error) : done(result))));
}

function add(number) {
  const values = [first + number, `node n${number}`, `it's "said" \\ чай\n${number}`, -number];
  return query("INSERT INTO rt (id, title, content, price) VALUES (?)", [values]);
}

async function found(text) {
  return (await query("SELECT id FROM rt WHERE MATCH(?) LIMIT 1000", [text])).length;
}

function expect(what, is, should) {
  if (is !== should) throw new Error(`${what}: ${is} for ${should}`);
}

async function main() {
  for (let number = 1; number <= count; number++) {
    await add(number);
    if (number % 10 === 0) expect(`found after ${number}`, await found("node"), number);
  }
  expect("quoted texts", await found('node "it s said чай"'), count);

  await query("BEGIN");
  await add(count + 1);
  await query("ROLLBACK");
  await query("BEGIN");
  await add(count + 1);
  await add(count + 2);
  expect("found before the commit", await found("node"), count);
  await query("COMMIT");
  expect("found after the commit", await found("node"), count + 2);

  const refused = await add(1).catch((error) => error);
  expect("the refusal's number", refused.errno, 1064);
  expect("the refusal's text", refused.sqlMessage.slice(0, 12), "duplicate id");

  const [row] = await query("SELECT id, price FROM rt WHERE MATCH('node') ORDER BY price ASC LIMIT 1");
  expect("the least price", `${row.id} ${row.price}`, `${first + count + 2} ${-count - 2}`);

  const [page, facet] = await query("SELECT id FROM rt WHERE MATCH('node') LIMIT 1 FACET gid");
  expect("the page", page.length, 1);
  expect("the facet", `${facet[0].gid} ${facet[0]["count(*)"]}`, `0 ${count + 2}`);

  expect("deleted", (await query("DELETE FROM rt WHERE id = ?", [first + count + 2])).affectedRows, 1);
  expect("found after the DELETE", await found("node"), count + 1);
  console.log(`node: ${count + 1} documents`);
}

main().then(
  () => db.end(),
  (error) => {
    console.error(`node: ${error.message}`);
    process.exit(1);
  }
);
