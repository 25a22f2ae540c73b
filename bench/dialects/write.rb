# Writes the moment of each line by its format: a format, a tab and the fields of a moment.
$stdout.set_encoding("UTF-8")
STDIN.each_line do |line|
  format, fields = line.chomp.split("\t")
  year, month, day, hour, minute, second, micro, offset = fields.split.map(&:to_i)
  puts Time.new(year, month, day, hour, minute, second + Rational(micro, 1_000_000), offset).strftime(format)
end
