%% SPDX-License-Identifier: Apache-2.0
%% The handshake of an accepted connection on the wire: frames go from the socket to the node, its words back to the socket,
%% until the node is ready to bring the end up, or it is closed. A socket puts lengths on and takes them off itself, by
%% {packet, 2} over TCP and {packet, 4} over TLS, and is active for one frame at a time, so that what follows the handshake stays in it.
-module(distnode_shake).
-export([accepted/4, frame/3, say/3, give/4]).
-export_type([outcome/0]).

%% An end's process makes the steps of its end by itself (distnode_core:arrived/3, early/2).

-include_lib("kernel/include/dist.hrl").

%% flags: what the peer announces, all until it does. timer: the one of dist_util, started while the peer is at its reply. begun: which
%% node may take the connection.
-record(shake, {transport :: module(), socket :: term(), own_end = none :: distnode_core:own_end() | none, wait :: timeout(),
                peer = none :: binary() | none, flags = 16#FFFFFFFFFFFFFFFF :: non_neg_integer(), timer = none :: pid() | none,
                begun :: non_neg_integer()}).

-type outcome() ::
    {ready, distnode_core:info(), Timer :: pid()} |
    {closed, Why :: term(), Peer :: binary() | none, Flags :: non_neg_integer()} |  % the socket is closed, too
    {refused, Peer :: binary() | none, Code :: atom()} |    % and so it is here
    {nameless, Frame :: binary()}.                          % here it is open

%% Each frame has this many milliseconds. A connection gets an end of the node with its first frame.
-spec accepted(module(), {Socket :: term(), Begun :: non_neg_integer()}, [term()], timeout()) -> outcome().
accepted(Transport, {Socket, Begun}, Allowed, Wait) ->
    S = #shake{transport = Transport, socket = Socket, wait = Wait, begun = Begun},
    case await(activate([binary, {packet, Transport:packet()}, distnode_address:nodelay()], S), S) of
        {frame, <<$N, Flags:64, _:32, Size:16, Host:Size/binary, _/binary>> = Body} when Flags band ?DFLAG_NAME_ME =/= 0 ->
            case Allowed =:= [] orelse is_certified(Host, S) of
                true -> {nameless, Body};
                false -> shut('Refused', S#shake{peer = Host})
            end;
        {frame, Body} -> named(Body, distnode_access:named_in(Body), Allowed, S);
        Closed -> Closed
    end.

named(Body, none, _, #shake{begun = Begun} = S) -> arrived(distnode_core:arrived(Body, none, Begun), none, S);
named(Body, {Peer, Flags}, Allowed, #shake{transport = Transport, socket = Socket} = S) ->
    case distnode_access:is_taken(Peer) of
        true -> introduced(Body, Peer, Allowed, S#shake{peer = Peer, flags = Flags});
        false ->
            %% It has no end of the node, and this is what OTP's carrier says.
            _ = say(Transport, Socket, [<<"snok">>]),
            shut(not_taken, S#shake{peer = Peer})
    end.

introduced(Body, Peer, Allowed, #shake{begun = Begun} = S) ->
    #{cookie := Cookie} =
        Access = case distnode_access:of_peer(Peer, Allowed) of
                     #{allowed := true} = Listed -> Listed#{allowed := is_certified(Peer, S)};
                     Other -> Other
                 end,
    arrived(distnode_core:arrived(Body, Access, Begun), Cookie, S).

%% Where there is an allow list: has the peer shown a certificate of the host in its name, if any?
is_certified(Name, #shake{transport = Transport, socket = Socket}) ->
    Transport:is_certified(Socket, binary_to_list(lists:last(binary:split(Name, <<"@">>)))).

arrived({ok, End, Answer}, Cookie, S) -> taken(Answer, S#shake{own_end = End#{cookie => Cookie}});
arrived({error, Code}, _, S) -> taken({error, Code}, S).

%% The timer is started, or has its whole time again, while the peer has the challenge.
go_on(S0) ->
    #shake{own_end = End} = S = with_timer(S0),
    case await(activate([], S), S) of
        {frame, Body} -> taken(distnode_core:early(Body, End), complemented(Body, S));
        Closed -> Closed
    end.

%% Behind an older name the higher flags come with the complement.
complemented(<<$c, High:32, _/binary>>, #shake{flags = Flags} = S) -> S#shake{flags = High bsl 32 bor (Flags band 16#FFFFFFFF)};
complemented(_, S) -> S.

activate(Options, #shake{transport = Transport, socket = Socket}) -> Transport:setopts(Socket, Options ++ [{active, once}]).

await({error, _}, S) -> given_up(ended, S);
await(ok, #shake{transport = Transport, socket = Socket, wait = Wait} = S) ->
    case frame(Transport, Socket, Wait) of
        {frame, Body} -> {frame, Body};
        {distnode, {closed, _, Why}} -> shut(Why, S);
        Why -> given_up(Why, S)
    end.

%% The next frame of a socket that is active, or what came in its place: a message to this process, or why there is none.
-spec frame(module(), term(), timeout()) -> {frame, binary()} | {distnode, term()} | ended | read_failed | gave_up.
frame(Transport, Socket, Wait) ->
    {Data, Closed, Error} = Transport:messages(),
    receive
        {Data, Socket, Body} -> {frame, Body};
        {Closed, Socket} -> ended;
        {Error, Socket, _} -> read_failed;
        {distnode, _} = Message -> Message
    after Wait -> gave_up
    end.

taken({more, Bodies}, #shake{transport = Transport, socket = Socket} = S) ->
    case say(Transport, Socket, Bodies) of
        ok -> go_on(S);
        _ -> given_up(write_failed, S)
    end;
taken({closed, Bodies, Why, _}, #shake{transport = Transport, socket = Socket} = S) ->
    _ = say(Transport, Socket, Bodies),
    shut(Why, S);
taken({ready, Info}, #shake{timer = Timer}) -> {ready, Info, Timer};
%% The node has closed the end in another's step.
taken({error, 'Gone'}, S) -> shut('Gone', S);
taken({error, Code}, #shake{peer = Peer} = S) ->
    _ = given_up(Code, S),
    {refused, Peer, Code}.

%% Each frame that is awaited has its whole time again.
with_timer(#shake{timer = none, wait = Wait} = S) -> S#shake{timer = dist_util:start_timer(Wait)};
with_timer(#shake{timer = Timer} = S) ->
    ok = dist_util:reset_timer(Timer),
    S.

given_up(Why, #shake{own_end = End} = S) ->
    _ = [distnode_core:lost(Id) || #{id := Id} <- [End]],
    shut(Why, S).

shut(Why, #shake{transport = Transport, socket = Socket, peer = Peer, flags = Flags}) ->
    _ = Transport:close(Socket),
    {closed, Why, Peer, Flags}.

-spec say(module(), term(), [binary()]) -> ok | {error, term()}.
say(_, _, []) -> ok;
say(Transport, Socket, [Body | Bodies]) ->
    case Transport:send(Socket, Body) of
        ok -> say(Transport, Socket, Bodies);
        Error -> Error
    end.

%% Hands the socket of an end that is ready to the setup that gets it, and ends.
-spec give(module(), term(), distnode_core:info(), pid()) -> no_return().
give(Transport, Socket, #{id := Id} = Info, Setup) ->
    case Transport:controlling_process(Socket, Setup) of
        ok ->
            Setup ! {distnode, {ready, Transport, Socket, Info}},
            distnode_core:handed(Id),
            exit(normal);
        _ -> exit(shutdown)
    end.
