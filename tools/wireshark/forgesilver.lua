-- Space packets with PUS headers, large packet transfer, raw memory management and request
-- verification, for Wireshark and tshark. The layouts are those of docs/FORMATS.md: the profile's, or a
-- mission's own, of a file that a preference names.
--
--   tshark -X lua_script:tools/wireshark/forgesilver.lua -r packets.pcap -Y 'lpt.id == 7'
--   tshark -X lua_script:tools/wireshark/forgesilver.lua -o pus.layout:mission.toml -r packets.pcap
--
-- It reads the records of link type 147, and the datagrams of the UDP ports that a preference names:
-- packets one behind the other. docs/FILES.md says how it is used.

local pus = Proto("pus", "Space packet with PUS headers")
local lpt = Proto("lpt", "Large packet transfer")

local TELECOMMAND, IDLE_APID, LONGEST, LAST = 1, 2047, 65542, 3
local SHORT, VERSION, LENGTH, SEGMENTED, NO_SECONDARY, CHECKSUM = 1, 2, 3, 4, 5, 6
local PUS_VERSION, SHORT_HEADER = 11, 13
local SHORT_PART, ZERO, KIND_NUMBER, PART_LENGTH, ABORT_BODY = 20, 21, 22, 23, 24
local FAULTS = {
    [SHORT] = "Short", [VERSION] = "Version", [LENGTH] = "Length", [SEGMENTED] = "Segmented",
    [NO_SECONDARY] = "NoSecondary", [CHECKSUM] = "Checksum", [PUS_VERSION] = "PusVersion",
    [SHORT_HEADER] = "ShortHeader", [SHORT_PART] = "ShortPart", [ZERO] = "Zero",
    [KIND_NUMBER] = "KindNumber", [PART_LENGTH] = "PartLength", [ABORT_BODY] = "AbortBody",
}
local TYPES = {[0] = "telemetry", [1] = "telecommand"}
local KINDS = {"first", "intermediate", "last"}
local REASONS = {"expired", "discontinuity", "conflict"}
local FAILURES = {
    "unknown service or subtype", "malformed body", "unknown memory", "out of range",
    "wrong checksum", "reply too long", "no free identifier", "too many open",
}

-- Numbers of 8, 16 and 32 bits, and of the bits of a mask.
local function u8(name, title, words, mask)
    return ProtoField.uint8(name, title, base.DEC, words, mask)
end

local function u16(name, title, words, mask)
    return ProtoField.uint16(name, title, base.DEC, words, mask)
end

local function bit_of(name, title, mask)
    return ProtoField.bool(name, title, 8, nil, mask)
end

local p = {
    length = ProtoField.uint32("pus.length", "Octets of the packet"),
    version = u16("pus.packet_version_number", "Packet version number", nil, 0xE000),
    kind = u16("pus.packet_type", "Packet type", TYPES, 0x1000),
    secondary = u16("pus.secondary_header_flag", "Secondary header flag", nil, 0x0800),
    apid = u16("pus.application_process_id", "Application process ID", nil, 0x07FF),
    sequence = u16("pus.sequence_flags", "Sequence flags", nil, 0xC000),
    count = u16("pus.packet_sequence_count", "Packet sequence count", nil, 0x3FFF),
    data_length = u16("pus.packet_data_length", "Packet data length"),
    idle = ProtoField.bool("pus.idle", "Idle packet"),
    pus = u8("pus.version_number", "PUS version number", nil, 0xF0),
    flags = u8("pus.acknowledgement_flags", "Acknowledgement flags", nil, 0x0F),
    acceptance = bit_of("pus.acknowledge_acceptance", "Acceptance", 1),
    start = bit_of("pus.acknowledge_start", "Start of execution", 2),
    progress = bit_of("pus.acknowledge_progress", "Progress of execution", 4),
    completion = bit_of("pus.acknowledge_completion", "Completion of execution", 8),
    status = u8("pus.spacecraft_time_reference_status", "Spacecraft time reference status", nil, 0x0F),
    service = u8("pus.service_type", "Service type"),
    subtype = u8("pus.message_subtype", "Message subtype"),
    source = u16("pus.source_id", "Source ID"),
    counter = u16("pus.message_type_counter", "Message type counter"),
    destination = u16("pus.destination_id", "Destination ID"),
    time = ProtoField.uint32("pus.time", "Time"),
    time_octets = ProtoField.bytes("pus.time_octets", "Time"),
    spare = ProtoField.bytes("pus.spare", "Spare octets"),
    body = ProtoField.bytes("pus.body", "Body"),
    checksum = ProtoField.uint16("pus.packet_error_control", "Packet error control", base.HEX),
    fault = u8("pus.fault_code", "Fault", FAULTS),

    request = ProtoField.uint32("pus.request_id", "Request ID", base.HEX),
    failure = u16("pus.failure_code", "Failure code", FAILURES),

    memory = u8("pus.memory_id", "Memory ID"),
    areas = u8("pus.n", "N"),
    address = ProtoField.uint32("pus.start_address", "Start address", base.HEX_DEC),
    area_length = u16("pus.area_length", "Length"),
    area_data = ProtoField.bytes("pus.area_data", "Data"),
    area_checksum = ProtoField.uint16("pus.area_checksum", "Checksum", base.HEX),
}
pus.fields = p

local m = {
    id = ProtoField.uint32("lpt.id", "Large message transaction identifier"),
    part = ProtoField.uint32("lpt.part", "Part sequence number"),
    kind = u8("lpt.kind", "Kind of part", KINDS),
    octets = u16("lpt.part_octets", "Octets of the part"),
    data = ProtoField.bytes("lpt.part_data", "Part"),
    source = u16("lpt.source", "Source of the transaction"),
    reason = u8("lpt.failure_reason", "Failure reason", REASONS),
    fault = u8("lpt.fault_code", "Fault", FAULTS),
    message = ProtoField.string("lpt.message", "Message"),
    first = ProtoField.framenum("lpt.first_frame", "The message's first part"),
}
lpt.fields = m

local MALFORMED = expert.group.MALFORMED
local ERROR, WARN, NOTE = expert.severity.ERROR, expert.severity.WARN, expert.severity.NOTE
local e = {
    checksum = ProtoExpert.new("pus.wrong_checksum", "Wrong checksum", expert.group.CHECKSUM, ERROR),
    area = ProtoExpert.new("pus.wrong_area_checksum", "Wrong checksum of an area", expert.group.CHECKSUM, ERROR),
    fault = ProtoExpert.new("pus.fault", "No packet", MALFORMED, ERROR),
    other = ProtoExpert.new("pus.other", "Packet that isn't read", expert.group.UNDECODED, NOTE),
    unread = ProtoExpert.new("pus.unread", "Unread body", MALFORMED, ERROR),
    layout = ProtoExpert.new("pus.layout_refused", "Refused layout", MALFORMED, ERROR),
    failed = ProtoExpert.new("pus.failed", "Failed request", expert.group.RESPONSE_CODE, WARN),
}
pus.experts = e

local x = {
    unread = ProtoExpert.new("lpt.unread", "Unread part", MALFORMED, ERROR),
    aborted = ProtoExpert.new("lpt.aborted", "Aborted reception", expert.group.RESPONSE_CODE, WARN),
}
lpt.experts = x

pus.prefs.udp_ports = Pref.range("UDP ports", "", "Ports whose datagrams are space packets", 65535)
pus.prefs.layout = Pref.string("Layout", "", "A file as of lpt --layout; empty for the profile")
lpt.prefs.part_size = Pref.uint("Part size", 0, "In octets, as both ends have it; 0 takes any")

-- A mission's layouts, of telemetry and of telecommands.

local function own_layouts()
    return {
        [0] = {checksum = true, version = 2, counter = 16, user = 16, time = 4, spare = 0, id = 16, number = 16},
        {checksum = true, version = 2, counter = 0, user = 16, time = 0, spare = 0, id = 16, number = 16},
    }
end

local layouts, refusal = own_layouts(), nil

-- The octets of a secondary header in front of its body, and those of a packet behind its body.
local function head_size(layout)
    return 3 + layout.counter / 8 + layout.user / 8 + layout.time + layout.spare
end

local function behind(layout)
    return layout.checksum and 2 or 0
end

-- TOML, the language of a layout's file. A value is {kind, value}, of the kinds below; a table has its values by
-- their keys, and how it was made, which says who may add to it.

local FLAG, INTEGER, TEXT, DAY, TABLE, OTHER = "flag", "integer", "text", "day", "table", "other"
local DAYS = {31, 29, 31, 30, 31, 30, 31, 31, 30, 31, 30, 31}
local ESCAPES = {b = "\b", t = "\t", n = "\n", f = "\f", r = "\r", e = "\27", ['"'] = '"', ["\\"] = "\\"}
local WIDTHS = {x = 2, u = 4, U = 8}

local function is_day(text)
    local year, month, day = text:match("^(%d%d%d%d)%-(%d%d)%-(%d%d)$")
    year, month, day = tonumber(year), tonumber(month), tonumber(day)
    if not year or not DAYS[month] or day < 1 or day > DAYS[month] then return false end
    local is_leap = year % 4 == 0 and (year % 100 ~= 0 or year % 400 == 0)
    return is_leap or month ~= 2 or day < 29
end

local function is_time(text)
    local hour, minute, rest = text:match("^(%d%d):(%d%d)(.*)$")
    if not hour or tonumber(hour) > 23 or tonumber(minute) > 59 then return false end
    local second, parts = rest:match("^:(%d%d)(.*)$")
    return rest == "" or second and tonumber(second) <= 60 and (parts == "" or parts:match("^%.%d+$") ~= nil)
end

local function is_moment(text)
    local day, time = text:match("^([%d-]+)[Tt ](.+)$")
    if not day then return is_time(text) end
    local hours, minutes = time:match("[+-](%d%d):(%d%d)$")
    if hours and (tonumber(hours) > 23 or tonumber(minutes) > 59) then return false end
    return is_day(day) and is_time(time:match("^(.*)[Zz]$") or (time:gsub("[+-]%d%d:%d%d$", "")))
end

-- These digits, of which two may have an underscore between them, without underscores and zeros in front.
local function digits_of(word, allowed)
    if ("_" .. word):gsub("_" .. allowed, ""):gsub(allowed, "") ~= "" then return end
    return (word:gsub("_", ""):gsub("^0+(.)", "%1"))
end

-- Digits by the letter of their radix: which there are, the radix, and the greatest of 63 bits.
local RADIXES = {
    x = {"%x", 16, "7" .. ("f"):rep(15)}, o = {"[0-7]", 8, ("7"):rep(21)}, b = {"[01]", 2, ("1"):rep(63)},
    d = {"%d", 10, "9223372036854775807"},
}

local function integer_of(word)
    local mark, sign, rest = word:match("^0([xob])(.+)$"), "", word:sub(3)
    if not mark then
        mark, sign, rest = "d", word:match("^([+-]?)(%d[%d_]*)$")
        if not rest or rest:match("^0.") then return end
    end
    local allowed, radix, greatest = RADIXES[mark][1], RADIXES[mark][2], RADIXES[mark][3]
    local digits = digits_of(rest, allowed)
    if not digits or #digits > #greatest then return end
    if #digits == #greatest and digits:lower() > greatest and sign .. digits ~= "-9223372036854775808" then return end
    return tonumber(digits, radix) * (sign == "-" and -1 or 1)
end

local function is_float(word)
    if word:match("^[+-]?inf$") or word:match("^[+-]?nan$") then return true end
    local whole, rest = word:match("^[+-]?(%d[%d_]*)(.+)$")
    if not whole or whole:match("^0.") or not digits_of(whole, "%d") then return false end
    local fraction, power = rest:match("^%.([%d_]+)(.*)$")
    if fraction and not digits_of(fraction, "%d") then return false end
    power = (fraction and power or rest):match("^[eE][+-]?([%d_]+)$")
    return (power ~= nil and digits_of(power, "%d") ~= nil) or (fraction ~= nil and rest == "." .. fraction)
end

local function plain_value(word)
    if word == "true" or word == "false" then return {FLAG, word == "true"} end
    local number = integer_of(word)
    if number then return {INTEGER, number} end
    if is_day(word) then return {DAY, word} end
    if is_float(word) or is_moment(word) then return {OTHER} end
end

-- A reader of this text, at a place that it moves on; what it can't read is an error of that place.
local function toml_reader(text)
    local it = {at = 1}

    function it.refuse() error({at = it.at}, 0) end

    -- What stands here by a pattern, which is passed.
    function it.take(pattern)
        local from, to, found = text:find("^" .. pattern, it.at)
        if not from then return end
        it.at = to + 1
        return found or text:sub(from, to)
    end

    function it.sees(pattern) return text:find("^" .. pattern, it.at) ~= nil end

    function it.need(pattern) return it.take(pattern) or it.refuse() end

    function it.is_end() return it.at > #text end

    function it.blanks() it.take("[ \t]*") end

    -- What may stand at a line's end, and the end.
    function it.line_end()
        it.blanks()
        it.take("#[^\n\r%z\1-\8\11\12\14-\31\127]*")
        if not it.is_end() and not it.take("\r?\n") then it.refuse() end
    end

    -- Blanks, comments and ends of lines.
    function it.gap()
        it.blanks()
        while it.sees("[#\r\n]") do
            it.line_end()
            it.blanks()
        end
    end

    return it
end

-- The character of an escape behind its backslash; those beyond ASCII are all one, as none is in a word that is known.
local function escaped(it)
    local mark = it.need("([btnfre\"\\xuU])")
    if ESCAPES[mark] then return ESCAPES[mark] end
    local number = tonumber(it.need("(" .. ("%x"):rep(WIDTHS[mark]) .. ")"), 16)
    if number > 0x10FFFF or number >= 0xD800 and number < 0xE000 then it.refuse() end
    return number < 128 and string.char(number) or "?"
end

-- A text of one line, or of several.
local function text_in(it)
    local mark = it.take('"""') or it.take("'''")
    local is_long = mark ~= nil
    mark = mark or it.take('"') or it.take("'")
    if not mark then return end
    local quote, found = mark:sub(1, 1), {}
    if is_long then it.take("\r?\n") end
    while true do
        if is_long then
            local marks = it.take(quote:rep(3) .. quote .. "?" .. quote .. "?")
            if marks then
                found[#found + 1] = marks:sub(4)
                return table.concat(found)
            end
        elseif it.take(quote) then
            return table.concat(found)
        end
        if quote == '"' and it.take("\\") then
            if is_long and it.take("[ \t]*\r?\n") then
                repeat it.blanks() until not it.take("\r?\n")
            else
                found[#found + 1] = escaped(it)
            end
        else
            found[#found + 1] = is_long and it.take("\r?\n") or it.need("([^\n\r%z\1-\8\11\12\14-\31\127])")
        end
    end
end

-- The names of a key, as `telemetry.time`.
local function names_in(it)
    local names = {}
    repeat
        it.blanks()
        if it.sees('"""') or it.sees("'''") then it.refuse() end
        names[#names + 1] = text_in(it) or it.need("[%w_-]+")
        it.blanks()
    until not it.take("%.")
    return names
end

-- The table of this name within another, made if there is none.
local function table_in(it, within, name, made)
    local found = within.values[name]
    if not found then
        found = {TABLE, values = {}, made = made}
        within.values[name] = found
    end
    if found.items and made == "implied" then found = found.items[#found.items] end
    if found[1] ~= TABLE or found.made == "closed" then it.refuse() end
    return found
end

local value_in

-- Sets the key that stands here in this table to the value behind it.
local function pair_in(it, within)
    local at = it.at
    local names = names_in(it)
    it.need("=")
    it.blanks()
    local value, after = value_in(it), it.at
    it.at = at
    for number = 1, #names - 1 do
        within = table_in(it, within, names[number], "dotted")
        if within.made ~= "dotted" then it.refuse() end
    end
    if within.values[names[#names]] then it.refuse() end
    it.at = after
    within.values[names[#names]] = value
end

local function closed(value)
    for _, it in pairs(value.values or {}) do closed(it) end
    value.made = "closed"
    return value
end

-- Reads what is between brackets, with commas between them, up to the one that closes.
local function each_in(it, close, read)
    it.gap()
    while not it.take(close) do
        read()
        it.gap()
        if not it.take(",") and not it.sees(close) then it.refuse() end
        it.gap()
    end
end

function value_in(it)
    local text = text_in(it)
    if text then return {TEXT, text} end
    if it.take("%[") then
        each_in(it, "%]", function() value_in(it) end)
        return {OTHER}
    end
    if it.take("{") then
        local found = {TABLE, values = {}}
        each_in(it, "}", function() pair_in(it, found) end)
        return closed(found)
    end
    local at = it.at
    local word = it.take("%d%d%d%d%-%d%d%-%d%d %d%d:[%w+:.-]*") or it.need("[%w+_:.-]+")
    local value = plain_value(word)
    if not value then
        it.at = at
        it.refuse()
    end
    return value
end

-- The table that a header names, which no other header named.
local function header_in(it, root)
    local is_item = it.take("%[") ~= nil
    local names, within = names_in(it), root
    it.need(is_item and "%]%]" or "%]")
    for at = 1, #names - 1 do
        within = table_in(it, within, names[at], "implied")
    end
    local name = names[#names]
    local found = within.values[name]
    if is_item then
        if found and not found.items then it.refuse() end
        found = found or {OTHER, items = {}}
        within.values[name] = found
        found.items[#found.items + 1] = {TABLE, values = {}, made = "named"}
        return found.items[#found.items]
    end
    if found and found.made ~= "implied" then it.refuse() end
    found = found or {TABLE, values = {}}
    found.made, within.values[name] = "named", found
    return found
end

-- The table of a text.
local function toml_in(it)
    local root = {TABLE, values = {}, made = "named"}
    local now = root
    it.take("\239\187\191")
    while not it.is_end() do
        it.blanks()
        if it.take("%[") then
            now = header_in(it, root)
        elseif not it.is_end() and not it.sees("[#\r\n]") then
            pair_in(it, now)
        end
        it.line_end()
    end
    return root
end

-- What the values of keys are: an error's words, or the value. Each takes a value of TOML.

local function bits_of(words, ...)
    local known = {...}
    return function(value)
        for _, it in ipairs(known) do
            if value[1] == INTEGER and value[2] == it then return it end
        end
        return nil, words
    end
end

local function from_to(least, most)
    return function(value)
        if value[1] ~= INTEGER then return nil, "not an integer" end
        if value[2] >= least and value[2] <= most then return value[2] end
        return nil, "not from " .. least .. " to " .. most
    end
end

local function flag_of(value)
    if value[1] == FLAG then return value[2] end
    return nil, "neither true nor false"
end

-- The octets of a time, and whether a code is named.
local function time_size(value)
    if value[1] == INTEGER and value[2] >= 0 and value[2] <= 16 then return value[2], false end
    local code, preamble = (value[1] == TEXT and value[2] or ""):match("^(.-)( ?p?)$")
    if preamble ~= " p" then code, preamble = value[1] == TEXT and value[2] or "", "" end
    local front = preamble == "" and 0 or 1
    local coarse, fine = code:match("^cuc ([1-4]) ([0-3])$")
    if coarse then return front + coarse + fine, true end
    local bits, unit = code:match("^cds (%d%d)(.*)$")
    local octets = ({[""] = 0, [" us"] = 2, [" ps"] = 4})[unit]
    if octets and (bits == "16" or bits == "24") then return front + bits / 8 + 4 + octets, true end
    return nil, 'neither 0 to 16 octets nor a code such as "cuc 4 3"'
end

local function day_of(value)
    if (value[1] == DAY or value[1] == TEXT) and is_day(value[2]) and value[2] >= "1900" then return value[2] end
    return nil, "not a day from 1900-01-01 to 9999-12-31"
end

-- The keys of each table in the order in which they are judged: what their values are, and which field of a layout.
local HEADER_BITS, PART_BITS = bits_of("not 0, 8 or 16", 0, 8, 16), bits_of("neither 16 nor 32", 16, 32)
local COMMON = {
    {"spare", from_to(0, 255), "spare"}, {"transaction_id", PART_BITS, "id"}, {"part_number", PART_BITS, "number"},
    {"part_size", from_to(1, 65535), "part_size"},
}
local KEYS = {
    [0] = {
        {"checksum", flag_of, "checksum"}, {"version", from_to(1, 2), "version"},
        {"counter", HEADER_BITS, "counter"}, {"destination", HEADER_BITS, "user"}, {"time", time_size, "time"},
        {"epoch", day_of, "epoch"}, (table.unpack or unpack)(COMMON),
    },
    {
        {"checksum", flag_of, "checksum"}, {"version", from_to(1, 2), "version"}, {"source", HEADER_BITS, "user"},
        (table.unpack or unpack)(COMMON),
    },
}

-- The line with which a key of this table begins, or the table; of the whole file, if no table is given.
local function line_of(text, name, key)
    local number, found, is_top = 0, nil, true
    for line in text:gmatch("([^\n]*)\n?") do
        number = number + 1
        local is_header, first = line:match("^[ \t]*%[") ~= nil, line:match("^[ \t%[\"']*([%w_-]*)")
        is_top = is_top and not is_header
        if not name then
            if (is_top or is_header) and first == key then return number end
        elseif is_header then
            if found then return found end
            if first == name then found = number end
        elseif found and first == key or not found and first == name then
            return number
        end
    end
    return found
end

-- Whether a name stands before another by their octets, whatever the locale.
local function is_before(one, other)
    local at = 1
    while one:byte(at) and one:byte(at) == other:byte(at) do at = at + 1 end
    return (one:byte(at) or -1) < (other:byte(at) or -1)
end

-- The first key, in the order of names, that is none of these.
local function unknown_in(values, known)
    local names, first = {}, nil
    for _, it in ipairs(known) do names[it[1]] = true end
    for name in pairs(values) do
        if not names[name] and (not first or is_before(name, first)) then first = name end
    end
    return first
end

-- Reads the table of a direction into its layout: the key that is wrong and why, if one is.
local function layout_in(values, way, layout)
    local unknown = unknown_in(values, KEYS[way])
    if unknown then return unknown, "no such key" end
    for _, it in ipairs(KEYS[way]) do
        local key, read, field = it[1], it[2], it[3]
        if values[key] then
            if key == "epoch" and not layout.is_code then return key, "means something only where time names a code" end
            local value, more = read(values[key])
            if value == nil then return key, more end
            layout[field] = value
            if key == "time" then layout.is_code = more end
        end
    end
end

local TABLES = {{"telemetry", 0}, {"telecommands", 1}}

-- The first octet of a text that isn't UTF-8.
local SEQUENCES = {
    "[%z\1-\127]+", "[\194-\223][\128-\191]", "\224[\160-\191][\128-\191]", "\237[\128-\159][\128-\191]",
    "[\225-\236\238\239][\128-\191][\128-\191]", "\240[\144-\191][\128-\191][\128-\191]",
    "[\241-\243][\128-\191][\128-\191][\128-\191]", "\244[\128-\143][\128-\191][\128-\191]",
}

local function octet_refused(text)
    local at = 1
    while at <= #text do
        local to
        for _, it in ipairs(SEQUENCES) do to = to or select(2, text:find("^" .. it, at)) end
        if not to then return at end
        at = to + 1
    end
end

-- The layouts that a text says; or the line for which it is refused, if one begins with what is wrong, and why.
local function layouts_in(text)
    local octet = octet_refused(text)
    if octet then return nil, nil, "octet " .. octet .. " isn't UTF-8" end
    local reader, made = toml_reader(text), own_layouts()
    local is_read, root = pcall(toml_in, reader)
    if not is_read then
        local at = type(root) == "table" and root.at or error(root, 0)
        local _, lines = text:sub(1, at - 1):gsub("\n", "")
        return nil, lines + 1, "not TOML"
    end
    local unknown = unknown_in(root.values, TABLES)
    if unknown then return nil, line_of(text, nil, unknown), (unknown ~= "" and unknown .. ": " or "") .. "no such key" end
    for _, it in ipairs(TABLES) do
        local name, way = it[1], it[2]
        local found = root.values[name]
        if found and found[1] ~= TABLE then return nil, line_of(text, nil, name), name .. ": not a table" end
        local key, why = layout_in(found and found.values or {}, way, made[way])
        if key then return nil, line_of(text, name, key), name .. ": " .. (key ~= "" and key .. ": " or "") .. why end
    end
    made.is_tailored = true
    return made
end

-- Reads the file that the preference names.
local function read_layouts()
    local path = pus.prefs.layout
    layouts, refusal = own_layouts(), nil
    if path == "" then return end
    local file, fault = io.open(path, "rb")
    local text = file and file:read("*a")
    if file then file:close() end
    if not text then
        refusal = path .. ": " .. (fault or "not read")
        return
    end
    local made, line, why = layouts_in(text)
    if made then layouts = made else refusal = path .. (line and ":" .. line or "") .. ": " .. why end
end

-- The checksum: a register of 16 ones, into which octets are shifted by x^16 + x^12 + x^5 + 1.

local xor = bit32 and bit32.bxor or bit and bit.bxor or load("return function(a, b) return a ~ b end")()
local SHIFTED = {}
for octet = 0, 255 do
    local register = octet * 256
    for _ = 1, 8 do
        register = register * 2
        register = register < 0x10000 and register or xor(register, 0x11021)
    end
    SHIFTED[octet] = register
end

local function checksum_of(octets)
    local register = 0xFFFF
    for at = 1, #octets do
        local low = register % 256
        register = xor(low * 256, SHIFTED[xor(math.floor(register / 256), octets:byte(at))])
    end
    return register
end

local function is_idle(octets)
    return octets:byte(1) % 8 * 256 + octets:byte(2) == IDLE_APID
end

-- The first test that these octets fail as a packet, by the layout of their type.
local function fault_of(octets)
    if #octets < 7 then return SHORT end
    local one, _, three, _, five, six = octets:byte(1, 6)
    if one >= 0x20 then return VERSION end
    if #octets ~= 7 + five * 256 + six then return LENGTH end
    if is_idle(octets) then return end
    if three < 0xC0 then return SEGMENTED end
    if one % 16 < 8 then return NO_SECONDARY end
    if not layouts[math.floor(one / 16) % 2].checksum then return end
    local high, low = octets:byte(-2, -1)
    if #octets < 8 or checksum_of(octets:sub(1, -3)) ~= high * 256 + low then return CHECKSUM end
end

-- How a record is cut into packets, as `lpt list` cuts a stream. A cut has the record's octets, and what a search
-- for a packet keeps of them.

-- The octets of the packet that begins here, as its header says; nothing if as many aren't there.
local function framed(cut, at)
    local octets = cut.octets
    if #octets < at + 6 then return end
    local high, low = octets:byte(at + 4, at + 5)
    local last = at + 6 + high * 256 + low
    return last <= #octets and octets:sub(at, last) or nil
end

-- Two registers multiplied, as what a register is of so many zeros by X is that of one.
local function times(one, other)
    local product = 0
    for _ = 1, 16 do
        product = product * 2
        product = product < 0x10000 and product or xor(product, 0x11021)
        if one >= 0x8000 then product = xor(product, other) end
        one = one * 2 % 0x10000
    end
    return product
end

-- For each number of octets the register of all so far, and the power of x by which a register is moved over them.
local function registers_of(octets)
    local registers, powers, register, power = {[0] = 0xFFFF}, {[0] = 1}, 0xFFFF, 1
    for at = 1, #octets do
        register = xor(register % 256 * 256, SHIFTED[xor(math.floor(register / 256), octets:byte(at))])
        power = xor(power % 256 * 256, SHIFTED[math.floor(power / 256)])
        registers[at], powers[at] = register, power
    end
    return registers, powers
end

-- Whether a packet with a right checksum and a secondary header begins here. The checksums of a record take
-- so no longer than its octets, whatever they are.
local function is_sealed_at(cut, at)
    local octets = cut.octets
    if #octets < at + 7 then return false end
    local one, two, three, _, high, low = octets:byte(at, at + 5)
    local last = at + 6 + high * 256 + low
    local is_fit = one < 0x20 and one % 16 >= 8 and three >= 0xC0 and one % 8 * 256 + two ~= IDLE_APID
    if not is_fit or last > #octets or last < at + 7 then return false end
    if not cut.registers then cut.registers, cut.powers = registers_of(octets) end
    local before = xor(cut.registers[at - 1], 0xFFFF)
    return times(before, cut.powers[last - at + 1]) == cut.registers[last]
end

-- Whether octets in step that fail this test are a packet all the same: its flags alone are why, and a checksum
-- by which the record is cut is right.
local function is_of_flags(cut, octets, fault)
    if fault ~= SEGMENTED and fault ~= NO_SECONDARY then return false end
    if not cut.is_sealed then return true end
    if #octets < 8 then return false end
    local high, low = octets:byte(-2, -1)
    return checksum_of(octets:sub(1, -3)) == high * 256 + low
end

-- Where the next packet begins behind octets that are none, or the record ends.
local function next_sealed(cut, at)
    if not cut.is_sealed then return #cut.octets + 1 end
    repeat at = at + 1 until at > #cut.octets or is_sealed_at(cut, at)
    return at
end

-- Whether a packet with a right checksum begins behind this place and ends in front of that one: then what begins
-- here is no damaged packet, since packets fill the octets that its header claims.
local function ends_in_sealed(cut, at, after)
    for inside = at + 1, after - 8 do
        local high, low = cut.octets:byte(inside + 4, inside + 5)
        if inside + 7 + high * 256 + low == after and is_sealed_at(cut, inside) then return true end
    end
    return false
end

-- The place behind the piece that begins here, the first test that it fails as a packet, whether it is what a
-- header says is one, or octets up to the next packet, and whether it is a packet all the same.
local function piece(cut, at)
    local octets = framed(cut, at)
    local fault = fault_of(octets or cut.octets:sub(at))
    if not fault then return at + #octets, nil, true end
    local after = at + #(octets or "")
    local is_sound = octets and is_of_flags(cut, octets, fault)
    local is_passed = octets and cut.is_sealed and (after > #cut.octets or is_sealed_at(cut, after))
        and not ends_in_sealed(cut, at, after)
    local is_piece = is_sound or is_passed or octets and not cut.is_sealed and fault ~= VERSION
    return is_piece and after or next_sealed(cut, at), fault, is_piece, is_sound
end

-- Of each name the frame of the first part that came last, and of each part that of its message's: this is found once,
-- in the order of frames.

local firsts, places = {}, {}

function lpt.init()
    firsts, places = {}, {}
    read_layouts()
end

-- The frame of the first part of a part's message, unless that didn't come before. A frame may have several datagrams.
local function first_frame(name, kind, at)
    local key = table.concat({at.pinfo.number, at.offset, at.number}, ":")
    if places[key] == nil then
        if kind == 1 then firsts[name] = at.pinfo.number end
        places[key] = firsts[name] or false
    end
    return places[key]
end

-- Where a part's number stands in a body, how wide it is, and where its octets begin.
local function places_of(layout)
    return layout.id / 8, layout.number / 8, (layout.id + layout.number) / 8
end

-- The first test that the body of a part fails.
local function part_fault(kind, body, layout)
    local at, width, start = places_of(layout)
    if body:len() < start then return SHORT_PART end
    local number, length = body(at, width):uint(), body:len() - start
    local size = layouts.is_tailored and (layout.part_size or 0) or lpt.prefs.part_size
    -- A part of any size is taken as the one of its message.
    if size == 0 then size = length end
    if number == 0 then return ZERO end
    if (kind == 1) ~= (number == 1) then return KIND_NUMBER end
    local is_size = length == size or kind == LAST and length < size
    if length == 0 or not is_size or (number - 1) * size + length > LONGEST then return PART_LENGTH end
end

-- What bodies are. Each function shows one, and says it in a few words.

-- Tells of a body, unless its packet is damaged.
local function tell(head, node, item, text)
    if not head.fault then node:add_proto_expert_info(item, text) end
end

local function part_body(kind)
    return function(body, head, node, at)
        local tree = node:add(lpt, body)
        local layout = layouts[head.kind]
        local after, width, start = places_of(layout)
        at.pinfo.cols.protocol = "LPT"
        if body:len() >= start then
            tree:add(m.id, body(0, after))
            tree:add(m.part, body(after, width))
        end
        if layout.user > 0 then tree:add(m.source, head.peer):set_generated() end
        local fault = part_fault(kind, body, layout)
        if fault then
            tree:add(m.octets, math.max(0, body:len() - start)):set_generated()
            if not head.fault then
                tree:add(m.fault, fault):set_generated()
                tree:add_proto_expert_info(x.unread, "The part isn't read: " .. FAULTS[fault])
            end
            return "part unread"
        end
        tree:add(m.kind, kind):set_generated()
        tree:add(m.octets, body:len() - start):set_generated()
        tree:add(m.data, body(start))
        local way, number = head.kind == TELECOMMAND and "up" or "down", body(after, width):uint()
        local name = string.format("%s %d/%.0f", way, head.peer, body(0, after):uint())
        local message = string.format("%s of APID %d", name, head.apid)
        tree:add(m.message, message):set_generated()
        tree:append_text(string.format(", %s, part %d", name, number))
        -- A datagram that an error quotes was sent before.
        local first = not head.fault and not at.pinfo.in_error_pkt and first_frame(message, kind, at)
        if first then tree:add(m.first, first):set_generated() end
        return string.format("%s part %d of %s", KINDS[kind], number, name)
    end
end

local function abort_body(body, head, node, at)
    local tree = node:add(lpt, body)
    at.pinfo.cols.protocol = "LPT"
    if layouts[head.kind].user > 0 then tree:add(m.source, head.peer):set_generated() end
    if body:len() ~= 3 or not REASONS[body(2, 1):uint()] then
        if not head.fault then
            tree:add(m.fault, ABORT_BODY):set_generated()
            tree:add_proto_expert_info(x.unread, "The abortion report isn't read")
        end
        return "abortion report unread"
    end
    tree:add(m.id, body(0, 2))
    tree:add(m.reason, body(2, 1))
    local reason = REASONS[body(2, 1):uint()]
    local said = string.format("up %d/%d aborted: %s", head.peer, body(0, 2):uint(), reason)
    tell(head, tree, x.aborted, "The reception was aborted: " .. reason)
    return said
end

-- A report of success, or one of failure with the codes from one to another that this service sends in it: another
-- code has the sender's meaning.
local function report_body(what, from, to)
    local is_failure = from ~= nil
    return function(body, head, tree)
        if body:len() ~= (is_failure and 6 or 4) then
            tell(head, tree, e.unread, "The report isn't read")
            return "report unread"
        end
        local apid, count = body(0, 2):bitfield(5, 11), body(2, 2):bitfield(2, 14)
        local of = string.format("of APID %d count %d", apid, count)
        tree:add(p.request, body(0, 4)):append_text(" (" .. of .. ")")
        if not is_failure then return what .. " succeeded, " .. of end
        local code = body(4, 2):uint()
        local is_own = code >= from and code <= to
        local node = tree:add(p.failure, body(4, 2))
        if not is_own then node:set_text("Failure code: " .. code) end
        local why = string.format("code %d, %s", code, is_own and FAILURES[code] or "unknown")
        tell(head, tree, e.failed, what .. " failed: " .. why)
        return what .. " failed, " .. of .. ": " .. why
    end
end

local function show_area(octets, length, head, tree, has_data, has_checksum)
    local address = octets(0, 4):uint()
    local area = tree:add(octets, string.format("Area: address %.0f, %d octets", address, length))
    area:add(p.address, octets(0, 4))
    area:add(p.area_length, octets(4, 2))
    if has_data then area:add(p.area_data, octets(6, length)) end
    if not has_checksum then return end
    local given = octets(octets:len() - 2, 2)
    local node = area:add(p.area_checksum, given)
    local right = has_data and checksum_of(octets:raw(6, length)) or given:uint()
    if right ~= given:uint() then
        tell(head, node, e.area, string.format("The area's checksum is 0x%04x", right))
    end
end

local function areas_body(what, has_data, has_checksum)
    return function(body, head, tree)
        local at, count, length = 2, body:len() >= 2 and body(1, 1):uint() or 0, nil
        if body:len() >= 2 then
            tree:add(p.memory, body(0, 1))
            tree:add(p.areas, body(1, 1))
        end
        local is_read = count > 0
        for _ = 1, count do
            length = at + 6 <= body:len() and body(at + 4, 2):uint() or 0
            local size = 6 + (has_data and length or 0) + (has_checksum and 2 or 0)
            is_read = length > 0 and at + size <= body:len()
            if not is_read then
                if length > 0 then show_area(body(at), length, head, tree) end
                break
            end
            show_area(body(at, size), length, head, tree, has_data, has_checksum)
            at = at + size
        end
        if not is_read or at < body:len() then
            tell(head, tree, e.unread, "The body of " .. body:len() .. " octets isn't read")
            return what .. " unread"
        end
        return string.format("%s of memory %d, %d area%s", what, body(0, 1):uint(), count, count > 1 and "s" or "")
    end
end

local BODIES = {
    ["TM[1,1]"] = report_body("acceptance"), ["TM[1,2]"] = report_body("acceptance", 1, 2),
    ["TM[1,3]"] = report_body("start"), ["TM[1,4]"] = report_body("start", 3, 8),
    ["TM[1,7]"] = report_body("completion"),
    ["TC[6,2]"] = areas_body("load", true, true), ["TC[6,5]"] = areas_body("dump"),
    ["TC[6,9]"] = areas_body("check"), ["TM[6,6]"] = areas_body("dump report", true, true),
    ["TM[6,10]"] = areas_body("check report", false, true),
    ["TM[13,1]"] = part_body(1), ["TM[13,2]"] = part_body(2), ["TM[13,3]"] = part_body(3),
    ["TC[13,9]"] = part_body(1), ["TC[13,10]"] = part_body(2), ["TC[13,11]"] = part_body(3),
    ["TM[13,16]"] = abort_body,
}

-- A body of these that has no octets isn't read.
local function show_no_body(title, tree)
    local fault = title == "TM[13,16]" and ABORT_BODY or title:match("%[13,") and SHORT_PART
    if fault then
        if fault == SHORT_PART then tree:add(m.octets, 0):set_generated() end
        tree:add(m.fault, fault):set_generated()
        tree:add_proto_expert_info(x.unread, "There is no body: " .. FAULTS[fault])
    else
        tree:add_proto_expert_info(e.unread, "There is no body")
    end
end

-- Headers.

local function primary_header(octets, tree)
    local node = tree:add(octets(0, 6), "Packet primary header")
    for _, field in ipairs({p.version, p.kind, p.secondary, p.apid}) do node:add(field, octets(0, 2)) end
    node:add(p.sequence, octets(2, 2))
    node:add(p.count, octets(2, 2))
    node:add(p.data_length, octets(4, 2))
    return {
        kind = octets(0, 1):bitfield(3, 1), apid = octets(0, 2):bitfield(5, 11),
        count = octets(2, 2):bitfield(2, 14),
    }
end

-- The rest of a telecommand's secondary header, and of telemetry's; what names the other end, 0 where nothing does.
local function command_header(field, node, layout)
    local flags, user = node:add(p.flags, field(0, 1)), layout.user / 8
    for _, flag in ipairs({p.acceptance, p.start, p.progress, p.completion}) do flags:add(flag, field(0, 1)) end
    node:add(p.service, field(1, 1))
    node:add(p.subtype, field(2, 1))
    if user > 0 then node:add(p.source, field(3, user)) end
    if layout.spare > 0 then node:add(p.spare, field(3 + user, layout.spare)) end
    return user > 0 and field(3, user):uint() or 0
end

local function report_header(field, node, layout)
    local counter, user, size = layout.counter / 8, layout.user / 8, layout.time
    local at = 3 + counter + user
    node:add(p.status, field(0, 1))
    node:add(p.service, field(1, 1))
    node:add(p.subtype, field(2, 1))
    if counter > 0 then node:add(p.counter, field(3, counter)) end
    if user > 0 then node:add(p.destination, field(3 + counter, user)) end
    if size > 0 then node:add((size > 4 or layout.is_code) and p.time_octets or p.time, field(at, size)) end
    if layout.spare > 0 then node:add(p.spare, field(at + size, layout.spare)) end
    return user > 0 and field(3 + counter, user):uint() or 0
end

local function show_fault(fault, tree, is_packet)
    local what = is_packet and "The packet isn't read: " or "The octets aren't read as a packet: "
    tree:add(p.fault, fault):set_generated()
    tree:add_proto_expert_info(is_packet and e.other or e.fault, what .. FAULTS[fault])
    return "fault " .. fault .. " " .. FAULTS[fault]
end

-- The secondary header and the body. Where the checksum is wrong that is the packet's fault, and no other.
local function data_field(field, head, tree, at)
    local is_command, layout = head.kind == TELECOMMAND, layouts[head.kind]
    local size = head_size(layout)
    local fault = (not field or field:len() < size) and SHORT_HEADER
        or field(0, 1):bitfield(0, 4) ~= layout.version and PUS_VERSION
    if fault then return head.fault and "" or show_fault(fault, tree, true) end
    local node = tree:add(field(0, size), "PUS header")
    node:add(p.pus, field(0, 1))
    head.peer = (is_command and command_header or report_header)(field, node, layout)
    local title = string.format("%s[%d,%d]", is_command and "TC" or "TM", field(1, 1):uint(), field(2, 1):uint())
    tree:append_text(", " .. title)
    local read = BODIES[title]
    if field:len() == size then
        if read and not head.fault then show_no_body(title, tree) end
        return title .. (read and ", no body" or "")
    end
    local body = field(size)
    if not read then
        tree:add(p.body, body)
        return title
    end
    return title .. " " .. read(body, head, tree, at)
end

-- Shows a packet, or octets that fail this test of one, and says what they are. `at` is where they stand: the
-- frame, the root of its tree, where the record or datagram begins there and the packet's number in that, whether its
-- header says where it ends, and whether it is a packet all the same.
local function packet(octets, fault, at)
    local tree = at.root:add(pus, octets)
    tree:add(p.length, octets:len()):set_generated()
    local head = octets:len() >= 7 and primary_header(octets, tree)
    if fault and (fault ~= CHECKSUM or not at.is_piece) then return show_fault(fault, tree, at.is_sound) end
    if head.apid == IDLE_APID then
        tree:add(p.idle, true):set_generated()
        return "idle packet"
    end
    local size, after = octets:len(), behind(layouts[head.kind])
    if size < 6 + after then return show_fault(fault, tree) end
    head.fault = fault
    local said = data_field(size > 6 + after and octets(6, size - 6 - after) or nil, head, tree, at)
    said = string.format("APID %d count %d %s", head.apid, head.count, said)
    if after == 0 then return said end
    local node = tree:add(p.checksum, octets(size - 2, 2))
    if fault then
        tree:add(p.fault, fault):set_generated()
        local right = checksum_of(octets:raw(0, size - 2))
        node:add_proto_expert_info(e.checksum, string.format("The packet's checksum is 0x%04x", right))
        said = "wrong checksum, " .. said
    end
    return said
end

-- The packets of a record or of a datagram.
function pus.dissector(tvb, pinfo, root)
    pinfo.cols.protocol = "PUS"
    local said, at = {}, 1
    local cut = {octets = tvb:raw(), is_sealed = layouts[0].checksum and layouts[1].checksum}
    if refusal then
        root:add(pus, tvb()):add_proto_expert_info(e.layout, "The layout isn't read: " .. refusal)
        pinfo.cols.info = "layout refused: " .. refusal
        return tvb:len()
    end
    while at <= #cut.octets do
        local after, fault, is_piece, is_sound = piece(cut, at)
        local where = {pinfo = pinfo, root = root, offset = tvb:offset(), number = #said}
        where.is_piece, where.is_sound = is_piece, is_sound
        said[#said + 1] = packet(tvb(at - 1, after - at), fault, where)
        at = after
    end
    pinfo.cols.info = table.concat(said, "; ")
    return tvb:len()
end

-- Where packets are.

local encapsulations = wtap_encaps or wtap
DissectorTable.get("wtap_encap"):add(encapsulations.USER0, pus)
local datagrams, ports = DissectorTable.get("udp.port"), ""
datagrams:add_for_decode_as(pus)

function pus.prefs_changed()
    read_layouts()
    if ports ~= "" then datagrams:remove(ports, pus) end
    ports = pus.prefs.udp_ports
    if ports ~= "" then datagrams:add(ports, pus) end
end
