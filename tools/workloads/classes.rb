class Link
  attr_reader :count

  def initialize
    @count = 0
    @next = nil
  end

  def before(link)
    @next = link
  end
end

class One < Link
  def step
    @count += 1
    @next
  end
end

class Two < Link
  def step
    @count += 2
    @next
  end
end

class Three < Link
  def step
    @count += 3
    @next
  end
end

class Four < Link
  def step
    @count += 4
    @next
  end
end

def walk(n)
  a, b, c, d = One.new, Two.new, Three.new, Four.new
  a.before(b)
  b.before(c)
  c.before(d)
  d.before(a)
  link = a
  i = 0
  while i < n
    link = link.step
    i += 1
  end
  a.count + b.count + c.count + d.count
end

puts walk(ARGV[0].to_i)
