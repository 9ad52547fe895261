class Link
  attr_reader :count

  def initialize
    @count = 0
    @next = nil
  end

  def before(link)
    @next = link
  end

  def step
    @count += 1
    @next
  end
end

def walk(n)
  a, b, c, d = Link.new, Link.new, Link.new, Link.new
  a.before(b)
  b.before(c)
  c.before(d)
  d.before(a)
  link = a
  i = 0
  while i < n
    link = link.step
    i += 1
  end
  a.count + b.count + c.count + d.count
end

puts walk(ARGV[0].to_i)
