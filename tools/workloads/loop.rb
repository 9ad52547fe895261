def count(n)
  i = 0
  while i < n
    i += 1
  end
  i
end

puts count(ARGV[0].to_i)
