-- Random trees, each beside a closure of Lua that does what it means: every call gives what the closure gives, and throws where it
-- throws, while sites get other trees, points become invalid, and the best plans are installed. `lua5.4 stress.lua ROUNDS` makes
-- so many rounds, and else 1,000.
local mhlink = require "mhlink"

local SITES, POINTS, CALLS, ROUNDS = 8, 16, 25, tonumber(arg[1] or 1000)

-- Each run draws the same numbers.
local state = 1
local function below(n)
  state = (state * 1103515245 + 12345) & 0x7fffffff
  return (state >> 8) % n
end

local function one_of(list) return list[below(#list) + 1] end

-- An int of 32 bits.
local function wrapped(x) return ((x + 0x80000000) & 0xffffffff) - 0x80000000 end

local function quotient(x, y)
  if y == 0 then error("ArithmeticException", 0) end
  local whole = math.abs(x) // math.abs(y)
  return wrapped((x < 0) == (y < 0) and whole or -whole)
end

local operations = {
  iadd = function(x, y) return wrapped(x + y) end,
  isub = function(x, y) return wrapped(x - y) end,
  imul = function(x, y) return wrapped(x * y) end,
  idiv = quotient,
  irem = function(x, y) return wrapped(x - quotient(x, y) * y) end,
}
local names = {"iadd", "isub", "imul", "idiv", "irem"}

local function any_int() return one_of {0, 1, -1, 2, -7, 10, 1000003, 2147483647, -2147483648, below(100), -below(1000000)} end

local valid = {}
local pair

-- A tree of the type (int)int.
local function single(depth)
  if depth == 0 or below(3) == 0 then return '["op","ineg"]', function(x) return wrapped(-x) end end
  if below(4) == 0 then return '["id","int"]', function(x) return x end end
  local tree, f = pair(depth - 1)
  local value = any_int()
  if below(2) == 0 then return ('["insert",%s,0,[%d]]'):format(tree, value), function(x) return f(value, x) end end
  return ('["insert",%s,1,[%d]]'):format(tree, value), function(x) return f(x, value) end
end

-- A tree of the type (int,int)boolean.
local function test()
  local tree, f = '["op","ilt"]', function(x, y) return x < y end
  if below(2) == 0 then tree, f = '["op","ieq"]', function(x, y) return x == y end end
  if below(2) == 0 then return tree, f end
  return ('["return",%s,["op","not"]]'):format(tree), function(x, y) return not f(x, y) end
end

-- Each makes a tree of the type (int,int)int with parts of a depth.
local makers = {
  function()
    local value = any_int()
    return ('["drop",["const","int",%d],0,["int","int"]]'):format(value), function() return value end
  end,
  function(depth)
    local condition, is = test()
    local target, f = pair(depth)
    local fallback, g = pair(depth)
    return ('["guard",%s,%s,%s]'):format(condition, target, fallback), function(x, y) if is(x, y) then return f(x, y) end return g(x, y) end
  end,
  function(depth)
    local point = below(POINTS)
    local target, f = pair(depth)
    local fallback, g = pair(depth)
    return ('["point","p%d",%s,%s]'):format(point, target, fallback), function(x, y) if valid[point] then return f(x, y) end return g(x, y) end
  end,
  function(depth)
    local tree, f = pair(depth)
    return ('["permute",%s,"(int,int)int",[1,0]]'):format(tree), function(x, y) return f(y, x) end
  end,
  function(depth)
    local tree, f = pair(depth)
    local first, g = single(depth)
    local second, h = single(depth)
    if below(2) == 0 then return ('["filter",%s,1,[%s]]'):format(tree, second), function(x, y) return f(x, h(y)) end end
    return ('["filter",%s,0,[%s,%s]]'):format(tree, first, second), function(x, y) return f(g(x), h(y)) end
  end,
  function(depth)
    local tree, f = pair(depth)
    local filter, g = single(depth)
    return ('["return",%s,%s]'):format(tree, filter), function(x, y) return g(f(x, y)) end
  end,
  function(depth)
    local tree, f = pair(depth)
    local combiner, g = pair(depth)
    local at = below(3)
    return ('["fold",["drop",%s,%d,["int"]],%s]'):format(tree, at, combiner), function(x, y)
      local three = {g(x, y), x, y}
      table.remove(three, at + 1)
      return f(three[1], three[2])
    end
  end,
}

-- A tree of the type (int,int)int, and what it means.
function pair(depth)
  if depth == 0 or below(5) == 0 then
    local name = one_of(names)
    return ('["op","%s"]'):format(name), operations[name]
  end
  return one_of(makers)(depth - 1)
end

-- A definition of sites that have an operation, and two links each.
local function definition()
  local points, sites = {}, {}
  for point = 0, POINTS - 1 do
    points[#points + 1] = ('{"name":"p%d","cost":%d}'):format(point, 20 + point)
    valid[point] = true
  end
  for site = 0, SITES - 1 do
    sites[#sites + 1] = ('{"name":"s%d","type":"(int,int)int","key":0,"target":["op","iadd"],"links":[{"when":1,"weight":3,"needs":["p%d"]},'
      .. '{"when":-7,"weight":2,"needs":["p%d","p%d"]}]}'):format(site, site, site, site + 8)
  end
  return ('{"version":2,"points":[%s],"sites":[%s]}'):format(table.concat(points, ","), table.concat(sites, ","))
end

local machine = mhlink.open(definition(), 1)
local meanings, calls, differ, changes, plans = {}, 0, 0, 0, 0
for site = 0, SITES - 1 do meanings[site] = operations.iadd end

local function call(site)
  local x, y = any_int(), any_int()
  local value, told = machine:call(0, site, "ii", x, y)
  local returned, wanted = pcall(meanings[site], x, y)
  calls = calls + 1
  if returned and value ~= wanted or not returned and (value ~= nil or told ~= wanted) then differ = differ + 1 end
end

for round = 1, ROUNDS do
  local site = below(SITES)
  local tree, meaning = pair(5)
  machine:target(site, tree)
  meanings[site], changes = meaning, changes + 1
  for _ = 1, CALLS do call(below(SITES)) end
  if round % 20 == 0 then
    machine:flush(0)
    machine:install(machine:plan(machine:snapshot()))
    plans = plans + 1
  end
  if round % 100 == 50 then
    local point = round // 100 % POINTS
    machine:invalidate(machine:point("p" .. point))
    valid[point], changes = false, changes + 1
  end
end

-- What is refused is an error, and changes nothing.
local refused = 0
for _, try in ipairs {
  function() machine:call(0, SITES, "ii", 1, 2) end,
  function() machine:call(0, 0, "i", 1) end,
  function() machine:target(0, '["op","ineg"]') end,
  function() mhlink.open("{}", 1) end,
} do
  if not pcall(try) then refused = refused + 1 end
end
for site = 0, SITES - 1 do call(site) end
machine:close()
print(("%d calls, %d changes, %d plans, %d refused, %d differ"):format(calls, changes, plans, refused, differ))
