local Link = {}
Link.__index = Link

function Link.new()
  return setmetatable({count = 0}, Link)
end

function Link:before(link)
  self.next = link
end

function Link:step()
  self.count = self.count + 1
  return self.next
end

local function walk(n)
  local a, b, c, d = Link.new(), Link.new(), Link.new(), Link.new()
  a:before(b)
  b:before(c)
  c:before(d)
  d:before(a)
  local link = a
  local i = 0
  while i < n do
    link = link:step()
    i = i + 1
  end
  return a.count + b.count + c.count + d.count
end

print(walk(tonumber(arg[1])))
