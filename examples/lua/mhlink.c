/* mhlink as a module of Lua 5.4: a machine is a value with methods.

       local mhlink = require "mhlink"
       local machine = mhlink.open(definition, workers)
       local value, steps = machine:call(worker, site, "is", 7, "text")   -- i int, l long, b boolean, s String
       machine:target(site, tree)   machine:invalidate(point, ..)   machine:flush(worker)
       machine:install(machine:plan(machine:snapshot()))   machine:site(name)   machine:point(name)   machine:total(link)

   A call that throws gives nil and the name of what was thrown. Whatever is refused is an error with the words of its status. */
#include "mhlink.h"
#include <lauxlib.h>
#include <lua.h>
#include <string.h>

#define MACHINE "mhlink.machine"
enum { MOST_VALUES = 16, LONGEST_TEXT = 65536 };

typedef struct machine {
    mhlink_machine handle;
    int is_open;
} machine;

static const uint8_t *bytes(const char *it) { return (const uint8_t *)it; }

/* Tells a status that is not 0. */
static void must(lua_State *lua, uint32_t status, uint64_t part) {
    uint8_t words[256];
    size_t length = 0;
    if (status == MHLINK_OK) return;
    if (mhlink_fault_text(status, part, words, sizeof words, &length)) length = 0;
    lua_pushlstring(lua, (const char *)words, length);
    luaL_error(lua, "mhlink: %d %s", (int)status, lua_tostring(lua, -1));
}

static machine *self(lua_State *lua) {
    machine *it = luaL_checkudata(lua, 1, MACHINE);
    luaL_argcheck(lua, it->is_open, 1, "the machine is closed");
    return it;
}

static int open_machine(lua_State *lua) {
    size_t length;
    const char *definition = luaL_checklstring(lua, 1, &length);
    const mhlink_limits widest = MHLINK_WIDEST_LIMITS;
    uint64_t part = 0;
    machine *it = lua_newuserdatauv(lua, sizeof *it, 0);
    it->is_open = 0;
    luaL_setmetatable(lua, MACHINE);
    must(lua, mhlink_open(bytes(definition), length, (uint32_t)luaL_optinteger(lua, 2, 1), &widest, &it->handle, &part), part);
    it->is_open = 1;
    return 1;
}

static int close_machine(lua_State *lua) {
    machine *it = luaL_checkudata(lua, 1, MACHINE);
    if (it->is_open) mhlink_close(it->handle);
    it->is_open = 0;
    return 0;
}

/* The value at a place of the stack, of a kind that a letter names. A text is put behind the others. */
static mhlink_value value_at(lua_State *lua, int at, char kind, luaL_Buffer *texts) {
    size_t length;
    switch (kind) {
    case 'i': return (mhlink_value){MHLINK_INT, luaL_checkinteger(lua, at)};
    case 'l': return (mhlink_value){MHLINK_LONG, luaL_checkinteger(lua, at)};
    case 'b': return (mhlink_value){MHLINK_BOOLEAN, lua_toboolean(lua, at)};
    case 's':
        luaL_checklstring(lua, at, &length);
        lua_pushvalue(lua, at);
        luaL_addvalue(texts);
        return (mhlink_value){MHLINK_STRING, (int64_t)length};
    default: luaL_error(lua, "a kind is i, l, b or s");
    }
    return (mhlink_value){0, 0};
}

/* What a call gave, and its steps. */
static int push_reply(lua_State *lua, machine *it, const mhlink_reply *reply) {
    uint8_t text[LONGEST_TEXT];
    size_t length = 0;
    switch (reply->kind) {
    case MHLINK_THROWN:
        lua_pushnil(lua);
        lua_pushstring(lua, reply->number == 1 ? "ArithmeticException" : "TextTooLong");
        return 2;
    case MHLINK_BOOLEAN: lua_pushboolean(lua, reply->number != 0); break;
    case MHLINK_STRING:
        must(lua, mhlink_text(&it->handle, text, sizeof text, &length), 0);
        lua_pushlstring(lua, (const char *)text, length);
        break;
    default: lua_pushinteger(lua, reply->number);
    }
    lua_pushinteger(lua, (lua_Integer)reply->steps);
    return 2;
}

static int call(lua_State *lua) {
    machine *it = self(lua);
    size_t count, length;
    const char *kinds = luaL_optlstring(lua, 4, "", &count);
    mhlink_value values[MOST_VALUES];
    mhlink_reply reply;
    luaL_Buffer texts;
    const int given = lua_gettop(lua) > 4 ? lua_gettop(lua) - 4 : 0;
    luaL_argcheck(lua, count <= MOST_VALUES && (int)count == given, 4, "as many values as kinds, at most 16");
    luaL_buffinit(lua, &texts);
    for (size_t at = 0; at < count; at++) values[at] = value_at(lua, 5 + (int)at, kinds[at], &texts);
    luaL_pushresult(&texts);
    const char *text = lua_tolstring(lua, -1, &length);
    const uint32_t worker = (uint32_t)luaL_checkinteger(lua, 2);
    must(lua, mhlink_call(&it->handle, worker, (size_t)luaL_checkinteger(lua, 3), values, count, bytes(text), length, &reply), 0);
    return push_reply(lua, it, &reply);
}

static int target(lua_State *lua) {
    machine *it = self(lua);
    size_t length;
    uint64_t part = 0;
    const char *tree = luaL_checklstring(lua, 3, &length);
    uint32_t status = mhlink_target(&it->handle, (size_t)luaL_checkinteger(lua, 2), bytes(tree), length, &part);
    must(lua, status, part);
    return 0;
}

static int invalidate(lua_State *lua) {
    machine *it = self(lua);
    for (int at = 2; at <= lua_gettop(lua); at++) {
        const uint32_t point = (uint32_t)luaL_checkinteger(lua, at);
        must(lua, mhlink_invalidate(&it->handle, &point, 1), 0);
    }
    return 0;
}

static int flush(lua_State *lua) {
    machine *it = self(lua);
    must(lua, mhlink_flush(&it->handle, (uint32_t)luaL_checkinteger(lua, 2)), 0);
    return 0;
}

static int snapshot(lua_State *lua) {
    uint64_t number = 0;
    must(lua, mhlink_snapshot(&self(lua)->handle, &number), 0);
    lua_pushinteger(lua, (lua_Integer)number);
    return 1;
}

/* A number that is found by a number. */
typedef uint32_t by_number(mhlink_machine *machine, size_t given, uint64_t *found);

static int number_by_number(lua_State *lua, by_number *find) {
    uint64_t number = 0;
    must(lua, find(&self(lua)->handle, (size_t)luaL_checkinteger(lua, 2), &number), 0);
    lua_pushinteger(lua, (lua_Integer)number);
    return 1;
}

static int plan(lua_State *lua) { return number_by_number(lua, mhlink_plan); }
static int total(lua_State *lua) { return number_by_number(lua, mhlink_total); }
static int linked(lua_State *lua) { return number_by_number(lua, mhlink_linked); }

static int install(lua_State *lua) {
    uint64_t number = 0, part = 0;
    uint32_t status = mhlink_install(&self(lua)->handle, (size_t)luaL_checkinteger(lua, 2), &number, &part);
    must(lua, status, part);
    lua_pushinteger(lua, (lua_Integer)number);
    return 1;
}

/* A number that is found by a name. */
typedef uint32_t by_name(mhlink_machine *machine, const uint8_t *name, size_t length, uint64_t *found);

static int number_by_name(lua_State *lua, by_name *find) {
    size_t length;
    const char *name = luaL_checklstring(lua, 2, &length);
    uint64_t number = 0;
    must(lua, find(&self(lua)->handle, bytes(name), length, &number), 0);
    lua_pushinteger(lua, (lua_Integer)number);
    return 1;
}

static int site(lua_State *lua) { return number_by_name(lua, mhlink_site); }
static int point(lua_State *lua) { return number_by_name(lua, mhlink_point); }

int luaopen_mhlink(lua_State *lua) {
    static const luaL_Reg methods[] = {
        {"call", call}, {"target", target}, {"invalidate", invalidate}, {"flush", flush}, {"snapshot", snapshot}, {"plan", plan},
        {"install", install}, {"total", total}, {"linked", linked}, {"site", site}, {"point", point}, {"close", close_machine},
        {"__gc", close_machine}, {NULL, NULL}};
    static const luaL_Reg functions[] = {{"open", open_machine}, {NULL, NULL}};
    luaL_newmetatable(lua, MACHINE);
    lua_pushvalue(lua, -1);
    lua_setfield(lua, -2, "__index");
    luaL_setfuncs(lua, methods, 0);
    luaL_newlib(lua, functions);
    return 1;
}
