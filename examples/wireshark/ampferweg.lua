-- Wireshark dissector for Ampferweg's datagrams: KCP segments, the messages that their fragments make, parity frames (docs/PARITY.md), and
-- the hellos of examples/udp. Put it into the personal Lua plugins (Help, About Wireshark, Folders), or name it:
--     tshark -X lua_script:ampferweg.lua -o ampferweg.ports:4000 -r line.pcapng
-- Preferences: the UDP ports, the mtu (for refusal 5), and k, the data frames of a parity group (0: not known).
-- Refusals have the link's numbers. A message is shown with the segment that completes it, where the segment before its first was
-- captured too; a link that opens anew with its old conversation looks like retransmissions.

local ampferweg = Proto("ampferweg", "Ampferweg (KCP)")

local commands = {[81] = "push", [82] = "ack", [83] = "window ask", [84] = "window tell"}
local types = {[241] = "data", [242] = "parity"}
local HEADER, FRAME, HELLO = 24, 8, 16

local f = {
    segment = ProtoField.bytes("ampferweg.segment", "Segment"),
    conv = ProtoField.uint32("ampferweg.conv", "Conversation"),
    cmd = ProtoField.uint8("ampferweg.cmd", "Command", base.DEC, commands),
    frg = ProtoField.uint8("ampferweg.frg", "Fragment (segments that follow in its message)"),
    wnd = ProtoField.uint16("ampferweg.wnd", "Window"),
    ts = ProtoField.uint32("ampferweg.ts", "Time"),
    sn = ProtoField.uint32("ampferweg.sn", "Number"),
    una = ProtoField.uint32("ampferweg.una", "All before this have arrived (una)"),
    len = ProtoField.uint32("ampferweg.len", "Length"),
    payload = ProtoField.bytes("ampferweg.payload", "Payload"),
    again = ProtoField.framenum("ampferweg.retransmission", "Retransmission of", base.NONE, frametype.RETRANS_PREV),
    message = ProtoField.string("ampferweg.message", "Message, whole here", base.UNICODE),
    tail = ProtoField.bytes("ampferweg.tail", "Bytes behind the last segment"),
    refusal = ProtoField.uint8("ampferweg.refusal", "Refused by number"),
    sequence = ProtoField.uint32("ampferweg.parity.sequence", "Sequence"),
    type = ProtoField.uint16("ampferweg.parity.type", "Type", base.DEC, types),
    shard = ProtoField.uint16("ampferweg.parity.len", "Length (itself and the datagram)"),
    parity = ProtoField.bytes("ampferweg.parity.bytes", "Parity"),
    group = ProtoField.uint32("ampferweg.parity.group", "Group"),
    place = ProtoField.uint8("ampferweg.parity.place", "Place"),
    boot = ProtoField.uint32("ampferweg.hello.boot", "Boot", base.HEX),
    token = ProtoField.uint32("ampferweg.hello.token", "Token", base.HEX),
    heard = ProtoField.uint32("ampferweg.hello.heard", "Last token heard", base.HEX),
}
ampferweg.fields = f

local refused = ProtoExpert.new("ampferweg.refused", "The link refuses this datagram", expert.group.MALFORMED, expert.severity.WARN)
local why = {
    [1] = "under 24 bytes", [2] = "another conversation than its first four bytes name", [3] = "len runs past the end",
    [4] = "unknown command", [5] = "a payload above mtu - 24", [6] = "a fragment number above 126",
    [21] = "len is not that of the datagram",
}
ampferweg.experts = {refused}

ampferweg.prefs.ports = Pref.range("UDP ports", "4000,46100-46109", "Ports of the stations", 65535)
ampferweg.prefs.mtu = Pref.uint("mtu", 512, "The longest datagram, 50 to 1400: a push above mtu - 24 bytes is refused")
ampferweg.prefs.k = Pref.uint("Data frames of a parity group", 0, "1 to 10; 0: not known, and groups are not shown")

-- What was pushed: for each direction and conversation, number -> the fragment number, the payload, and the frame where it came first.
local pushed = {}
function ampferweg.init() pushed = {} end

local function refuse(tree, range, number)
    tree:add(f.refusal, range, number):set_generated()
    tree:add_proto_expert_info(refused, "Refused " .. number .. ": " .. why[number])
end

-- Keeps a push, and answers the entries of its direction.
local function keep(pinfo, conv, sn, frg, bytes)
    local key = table.concat({tostring(pinfo.src), pinfo.src_port, tostring(pinfo.dst), pinfo.dst_port, conv}, " ")
    local entries = pushed[key] or {}
    pushed[key] = entries
    entries[sn] = entries[sn] or {frg = frg, bytes = bytes, frame = pinfo.number}
    return entries
end

-- The message that segment `sn` completes: all its segments are there, `sn` came last, and a message ends before its first.
local function completed(entries, sn)
    local first, last = sn, sn
    while entries[first - 1] and entries[first - 1].frg == entries[first].frg + 1 do first = first - 1 end
    while entries[last + 1] and entries[last].frg > 0 and entries[last + 1].frg == entries[last].frg - 1 do last = last + 1 end
    local before = entries[first - 1]
    if entries[last].frg > 0 or (first > 0 and not (before and before.frg == 0)) then return end
    local message = ByteArray.new()
    for i = first, last do
        local later = entries[i].frame > entries[sn].frame or (entries[i].frame == entries[sn].frame and i > sn)
        if later then return end
        message:append(entries[i].bytes)
    end
    return message
end

local function push(tvb, at, len, pinfo, tree, header)
    local entries = keep(pinfo, header.conv, header.sn, header.frg, tvb(at, len):bytes())
    if len > 0 then tree:add(f.payload, tvb(at, len)) end
    if entries[header.sn].frame < pinfo.number then
        tree:add(f.again, entries[header.sn].frame):set_generated()
        return
    end
    local message = completed(entries, header.sn)
    if message and message:len() > 0 then
        tree:add(f.message, message:tvb("Message")(0, message:len())):set_generated()
    end
end

-- Adds the segment at `at`. Answers where the next one starts and a word for the list, or nil and the refusal's number.
local function segment(tvb, at, pinfo, tree)
    local function u32(offset) return tvb(at + offset, 4):le_uint() end
    local header = {conv = u32(0), cmd = tvb(at + 4, 1):uint(), frg = tvb(at + 5, 1):uint(), sn = u32(12), len = u32(20)}
    local fits = header.len <= tvb:len() - at - HEADER
    local name = (commands[header.cmd] or "command " .. header.cmd) .. " " .. header.sn
    local part = tree:add(f.segment, tvb(at, HEADER + (fits and header.len or 0)))
    part:set_text(name .. ", " .. header.len .. " bytes")
    part:add_le(f.conv, tvb(at, 4))
    part:add(f.cmd, tvb(at + 4, 1))
    part:add(f.frg, tvb(at + 5, 1))
    part:add_le(f.wnd, tvb(at + 6, 2))
    part:add_le(f.ts, tvb(at + 8, 4))
    part:add_le(f.sn, tvb(at + 12, 4))
    part:add_le(f.una, tvb(at + 16, 4))
    part:add_le(f.len, tvb(at + 20, 4))
    if header.conv ~= tvb(0, 4):le_uint() then return nil, 2 end
    if not fits then return nil, 3 end
    if not commands[header.cmd] then return nil, 4 end
    if header.cmd == 81 and header.len > ampferweg.prefs.mtu - HEADER then return nil, 5 end
    if header.cmd == 81 and header.frg > 126 then return nil, 6 end
    if header.cmd == 81 then push(tvb, at + HEADER, header.len, pinfo, part, header) end
    return at + HEADER + header.len, name
end

local function datagram(tvb, pinfo, tree)
    local at, words = 0, {}
    if tvb:len() < HEADER then
        refuse(tree, tvb(), 1)
        return "a datagram of " .. tvb:len() .. " bytes"
    end
    while tvb:len() - at >= HEADER do
        local next, word = segment(tvb, at, pinfo, tree)
        if not next then
            refuse(tree, tvb(at), word)
            return "refused " .. word
        end
        at = next
        words[#words + 1] = word
    end
    if at < tvb:len() then tree:add(f.tail, tvb(at)) end
    return table.concat(words, ", ")
end

-- A frame of parity: a data frame holds a datagram, a parity frame what stands for its len and bytes.
local function frame(tvb, pinfo, tree)
    local sequence, kind, k = tvb(0, 4):le_uint(), tvb(4, 2):le_uint(), ampferweg.prefs.k
    tree:add_le(f.sequence, tvb(0, 4))
    tree:add_le(f.type, tvb(4, 2))
    if k > 0 then
        tree:add(f.group, tvb(0, 4), math.floor(sequence / (k + 2))):set_generated()
        tree:add(f.place, tvb(0, 4), sequence % (k + 2)):set_generated()
    end
    if kind == 242 then
        tree:add(f.parity, tvb(6))
        return "frame " .. sequence .. ", parity"
    end
    tree:add_le(f.shard, tvb(6, 2))
    if tvb(6, 2):le_uint() ~= tvb:len() - 6 then
        refuse(tree, tvb(6, 2), 21)
        return "frame " .. sequence .. ", refused 21"
    end
    return "frame " .. sequence .. ": " .. datagram(tvb(FRAME):tvb(), pinfo, tree)
end

local function hello(tvb, tree)
    tree:add_le(f.boot, tvb(4, 4))
    tree:add_le(f.token, tvb(8, 4))
    tree:add_le(f.heard, tvb(12, 4))
    return "hello"
end

function ampferweg.dissector(tvb, pinfo, root)
    local tree, words = root:add(ampferweg, tvb()), nil
    pinfo.cols.protocol = "Ampferweg"
    if tvb:len() == HELLO and tvb(0, 4):string() == "AWH1" then
        words = hello(tvb, tree)
    elseif tvb:len() >= FRAME + HEADER and types[tvb(4, 2):le_uint()] then -- no command has these numbers
        words = frame(tvb, pinfo, tree)
    else
        words = datagram(tvb, pinfo, tree)
    end
    pinfo.cols.info = words
    tree:append_text(", " .. words)
    return tvb:len()
end

local ports = DissectorTable.get("udp.port")
function ampferweg.prefs_changed() ports:set(ampferweg.prefs.ports, ampferweg) end
ports:set(ampferweg.prefs.ports, ampferweg)
