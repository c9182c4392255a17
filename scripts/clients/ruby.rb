# Ruby's mysql2 (Debian: ruby, ruby-mysql2).
require "mysql2"

PORT, FIRST, COUNT = ARGV.map(&:to_i)
DB = Mysql2::Client.new(host: "127.0.0.1", port: PORT, username: "", encoding: "utf8")

def add(number)
  content = DB.escape("it's \"said\" \\ чай\n#{number}")
  DB.query("INSERT INTO rt (id, title, content, price) VALUES (#{FIRST + number}, 'ruby n#{number}', '#{content}', -#{number})")
end

def found(query)
  DB.query("SELECT id FROM rt WHERE MATCH('#{DB.escape(query)}') LIMIT 1000").count
end

def expect(what, is, should)
  abort "ruby: #{what}: #{is} for #{should}" if is != should
end

(1..COUNT).each do |number|
  add(number)
  expect("found after #{number}", found("ruby"), number) if number % 10 == 0
end
expect("quoted texts", found('ruby "it s said чай"'), COUNT)

DB.query("BEGIN")
add(COUNT + 1)
DB.query("ROLLBACK")
DB.query("BEGIN")
add(COUNT + 1)
add(COUNT + 2)
expect("found before the commit", found("ruby"), COUNT)
DB.query("COMMIT")
expect("found after the commit", found("ruby"), COUNT + 2)

begin
  add(1)
  abort "ruby: a duplicate was added"
rescue Mysql2::Error => refused
  expect("the refusal", [refused.error_number, refused.message[0, 12]], [1064, "duplicate id"])
end

row = DB.query("SELECT id, price FROM rt WHERE MATCH('ruby') ORDER BY price ASC LIMIT 1").first
expect("the least price", row, { "id" => FIRST + COUNT + 2, "price" => -COUNT - 2 })

expect("the page", DB.query("SELECT id FROM rt WHERE MATCH('ruby') LIMIT 1 FACET gid").count, 1)
DB.next_result
expect("the facet", DB.store_result.first, { "gid" => 0, "count(*)" => COUNT + 2 })

DB.query("DELETE FROM rt WHERE id = #{FIRST + COUNT + 2}")
expect("deleted", DB.affected_rows, 1)
expect("found after the DELETE", found("ruby"), COUNT + 1)
puts "ruby: #{COUNT + 1} documents"
DB.close
