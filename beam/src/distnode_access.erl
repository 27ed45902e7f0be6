%% SPDX-License-Identifier: Apache-2.0
%% What this emulator says of a peer before a step is made: the cookie for it, the cookie for all others, and whether the
%% allow list names it. It is asked by the process of a connection, since auth and net_kernel are asked for it.
-module(distnode_access).
-export([of_peer/2, usual/0, named_in/1, is_taken/1, whole/1, report/2, report_refused/2, report_not_taken/1, quoted/1]).
-export_type([access/0, cookie/0]).

-include_lib("kernel/include/dist.hrl").

%% The flags that some release requires, by the names that dist_util writes and doesn't export.
-define(FLAG_NAMES, [{?DFLAG_V4_NC, "V4_NC"}, {?DFLAG_UNLINK_ID, "UNLINK_ID"}, {?DFLAG_HANDSHAKE_23, "HANDSHAKE_23"},
                     {?DFLAG_BIG_CREATION, "BIG_CREATION"}, {?DFLAG_MAP_TAG, "MAP_TAG"}, {?DFLAG_UTF8_ATOMS, "UTF8_ATOMS"},
                     {?DFLAG_NEW_FLOATS, "NEW_FLOATS"}, {?DFLAG_BIT_BINARIES, "BIT_BINARIES"},
                     {?DFLAG_EXPORT_PTR_TAG, "EXPORT_PTR_TAG"}, {?DFLAG_EXTENDED_PIDS_PORTS, "EXTENDED_PIDS_PORTS"},
                     {?DFLAG_NEW_FUN_TAGS, "NEW_FUN_TAGS"}, {?DFLAG_FUN_TAGS, "FUN_TAGS"},
                     {?DFLAG_EXTENDED_REFERENCES, "EXTENDED_REFERENCES"}]).

-type cookie() :: {ok, binary()} | {error, atom()}.
-type access() :: #{peer := binary(), cookie := cookie(), allowed := all | boolean()}.

%% Allowed is the list that net_kernel hands to a carrier with each accepted connection; empty, it lets everybody in.
-spec of_peer(binary(), [term()]) -> access().
of_peer(Peer, Allowed) ->
    #{peer => Peer, cookie => cookie_for(Peer), allowed => is_allowed(Peer, Allowed)}.

-spec usual() -> cookie().
usual() -> text(erlang:get_cookie()).

%% A name that is no atom here has no cookie of its own: strangers make no atoms.
cookie_for(Peer) ->
    try binary_to_existing_atom(Peer, latin1) of
        Node -> text(erlang:get_cookie(Node))
    catch
        error:_ -> usual()
    end.

%% The library reads a cookie as the file .erlang.cookie has it, where spaces at the end belong to none; OTP takes any atom.
text(Cookie) ->
    case atom_to_binary(Cookie, utf8) of
        <<>> -> {error, 'CookieEmpty'};
        Text ->
            case {[C || <<C>> <= Text, C < 16#20 orelse C > 16#7E], binary:last(Text)} of
                {[], Last} when Last =/= $\s -> {ok, Text};
                _ -> {error, 'CookieBadByte'}
            end
    end.

is_allowed(_, []) -> all;
is_allowed(Peer, Allowed) -> dist_util:is_allowed(binary_to_list(Peer), Allowed).

%% The name and the flags in a first frame, in the form of version 6 or of version 5; none where it is no such frame, which the node
%% refuses. The higher flags behind an older name come later, and count as there until then.
-spec named_in(binary()) -> {binary(), Flags :: non_neg_integer()} | none.
named_in(<<$N, Flags:64, _Creation:32, Size:16, Name:Size/binary, _/binary>>) -> {Name, Flags};
named_in(<<$n, _Version:16, Flags:32, Name/binary>>) when Flags band ?DFLAG_HANDSHAKE_23 =/= 0 -> {Name, 16#FFFFFFFF bsl 32 bor Flags};
named_in(<<$n, _Version:16, Flags:32, Name/binary>>) -> {Name, Flags};
named_in(_) -> none.

%% Whether net_kernel takes a peer of this name: before the @ the emulator takes fewer characters than the library. What is no name at
%% all the node refuses.
-spec is_taken(binary()) -> boolean().
is_taken(<<C, Rest/binary>>) when C >= $0, C =< $9; C >= $A, C =< $Z; C >= $a, C =< $z; C =:= $_; C =:= $- -> is_taken(Rest);
is_taken(<<C, _/binary>>) -> C =:= $@;
is_taken(<<>>) -> true.

%% The flags that a peer has which announces these: one of them may stand for others.
-spec whole(non_neg_integer()) -> non_neg_integer().
whole(Flags) when Flags band ?DFLAG_MANDATORY_25_DIGEST =/= 0 -> Flags bor ?MANDATORY_DFLAGS_25;
whole(Flags) -> Flags.

%% The required flags that such a peer lacks, as dist_util writes them.
lacking(Flags) ->
    {erts_dflags, _, Mandatory, _, _, _} = erts_internal:get_dflags(),
    Missing = Mandatory band bnot whole(Flags),
    [flag_name(Missing band (1 bsl Place)) || Place <- lists:seq(63, 0, -1), Missing band (1 bsl Place) =/= 0].

flag_name(Flag) -> proplists:get_value(Flag, ?FLAG_NAMES, lists:flatten(io_lib:format("UNKNOWN<~.16.0B>", [Flag]))).

%% Says why an attempt was refused, where nobody else does: the library has no use for the name or the cookie.
-spec report(binary() | node() | none, atom()) -> ok.
report(Peer, Code) ->
    case atom_to_list(Code) of
        "Cookie" ++ _ -> say("the cookie for node ~ts can't be used: ~s", [quoted(Peer), Code]);
        "Name" ++ _ -> say("the name of node ~ts or of this node can't be used: ~s", [quoted(Peer), Code]);
        _ -> say("node ~ts: ~s", [quoted(Peer), Code])
    end.

%% The node has refused the name that this peer has said, or its flags. OTP takes letters beyond ASCII, as Latin-1, and the library
%% doesn't.
-spec report_refused(binary() | none, Flags :: non_neg_integer()) -> ok.
report_refused(Peer, Flags) ->
    Own = atom_to_binary(node(), utf8),
    case {[C || Peer =/= none, <<C>> <= Peer, C < 16#21 orelse C > 16#7E], lacking(Flags)} of
        {[_ | _], _} -> say("the name of node ~ts has characters other than printable ASCII", [quoted(Peer)]);
        {[], [_ | _] = Lacking} ->
            error_logger:error_msg("** ~w: Connection attempt from node ~ts rejected since it cannot handle ~p.**~n",
                                   [node(), quoted(Peer), Lacking]);
        {[], []} when Peer =:= Own -> report_not_taken(Peer);
        {[], []} -> error_logger:error_msg("** Connection attempt from disallowed node ~ts ** ~n", [quoted(Peer)])
    end.

%% What net_kernel says of such a peer.
-spec report_not_taken(binary()) -> ok.
report_not_taken(Peer) -> error_logger:error_msg("** Cannot get connection id for node ~ts~n", [quoted(Peer)]).

say(Text, Arguments) -> error_logger:error_msg("** Connection attempt refused, " ++ Text ++ " **~n", Arguments).

%% What a peer has said is its name, or the name of a node to dial, for a message: as OTP writes an atom between quotes, so that no byte
%% of it acts on a terminal or begins a line. No name has more than 255 bytes.
-spec quoted(binary() | node() | none) -> iolist().
quoted(none) -> "(unknown)";
quoted(Node) when is_atom(Node) -> io_lib:write_string(atom_to_list(Node), $');
quoted(<<Name:255/binary, _, _/binary>>) -> [quoted(Name), ".."];
quoted(Name) -> io_lib:write_string(binary_to_list(Name), $').
