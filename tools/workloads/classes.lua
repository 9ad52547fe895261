local Link = {}

function Link:before(link)
  self.next = link
end

-- A class under Link.
local function subclass()
  local class = setmetatable({}, {__index = Link})
  class.__index = class
  function class.new()
    return setmetatable({count = 0}, class)
  end
  return class
end

local One, Two, Three, Four = subclass(), subclass(), subclass(), subclass()

function One:step()
  self.count = self.count + 1
  return self.next
end

function Two:step()
  self.count = self.count + 2
  return self.next
end

function Three:step()
  self.count = self.count + 3
  return self.next
end

function Four:step()
  self.count = self.count + 4
  return self.next
end

local function walk(n)
  local a, b, c, d = One.new(), Two.new(), Three.new(), Four.new()
  a:before(b)
  b:before(c)
  c:before(d)
  d:before(a)
  local link = a
  local i = 0
  while i < n do
    link = link:step()
    i = i + 1
  end
  return a.count + b.count + c.count + d.count
end

print(walk(tonumber(arg[1])))
