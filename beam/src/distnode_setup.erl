%% SPDX-License-Identifier: Apache-2.0
%% The process that net_kernel starts to set up a connection to a peer. It has the node dial, and gets whichever end becomes
%% ready with that peer, its own dial or a connection that the peer made meanwhile; that one it holds to its end. A process
%% beside it finds the peer and connects, so that another end can be reported to it at any time.
-module(distnode_setup).
-export([start/7, setup/9, dial/3]).

-include_lib("kernel/include/dist_util.hrl").

%% A peer that says nok dials itself, and its connection is on its way. If it doesn't come in so many milliseconds, the peer's
%% dial has failed, and this node dials again.
-define(WAIT_FOR_OTHER, 300).

%% The own dial: `dialler` finds the peer until it has handed the socket over. end_of: its end, or one that another process has made
%% ready, and socket: that end's {Transport, Socket}. cookie: the one with which the dial was wanted. over: the end that was up when
%% net_kernel started this process. until: when all attempts together have had the time of a setup.
-record(setup, {transport, driver, kernel, node, peer, over, type, my_node, name, host, wait, until, cookie, dialler = none, end_of = none,
                socket = none}).

start(Transport, Driver, Node, Type, MyNode, LongOrShort, SetupTime) ->
    Over = distnode_core:up_end(atom_to_binary(Node, utf8)),
    spawn_opt(?MODULE, setup, [Transport, Driver, self(), Node, Over, Type, MyNode, LongOrShort, SetupTime],
              distnode_carrier:setup_options()).

setup(Transport, Driver, Kernel, Node, Over, Type, MyNode, LongOrShort, SetupTime) ->
    {Name, Host} = distnode_address:parts(Driver, Node, LongOrShort),
    not_hidden(Type, Node),
    want(#setup{transport = Transport, driver = Driver, kernel = Kernel, node = Node, peer = atom_to_binary(Node, utf8), over = Over,
                type = Type, my_node = MyNode, name = Name, host = Host, wait = SetupTime, until = now_ms() + SetupTime}).

now_ms() -> erlang:monotonic_time(millisecond).

left(#setup{until = Until}) -> max(0, Until - now_ms()).

%% The node has one set of flags for all its dials, so it can't hide from one peer.
not_hidden(hidden, Node) ->
    case net_kernel:publish_on_node(Node) of
        true ->
            error_logger:error_msg("** Connection attempt to node ~w refused, distnode makes no hidden one **~n", [Node]),
            ?shutdown2(Node, hidden_dial);
        _ -> ok
    end;
not_hidden(_, _) -> ok.

want(S) -> want(left(S), S).

want(0, S) -> failed(S, gave_up);
want(_, #setup{peer = Peer, over = Over} = S0) ->
    #{cookie := Cookie} = Access = distnode_access:of_peer(Peer, []),
    S = S0#setup{cookie = Cookie},
    ok = distnode_core:want(Access, Over),
    receive
        {distnode, {dial, End}} -> dial_now(End, S)
    after 0 -> await(S)
    end.

%% The resolver and the port mapper have no limit of their own, and end with this process.
dial_now(End, #setup{transport = Transport, driver = Driver, name = Name, host = Host, wait = Wait} = S) ->
    Dialler = spawn_opt(?MODULE, dial, [self(), End, {Transport, Driver, Name, Host, Wait}], distnode_carrier:setup_options()),
    await(S#setup{dialler = Dialler, end_of = End#{peer => S#setup.peer, cookie => S#setup.cookie}}).

%% Without a dial this process waits for an end that somebody else has with that peer.
await(#setup{transport = Transport, dialler = Dialler} = S) ->
    receive
        {distnode, Message} -> receive_message(Message, S);
        {Dialler, {connected, Socket}} -> bring_up(S#setup{dialler = none, socket = {Transport, Socket}}, left(S));
        {Dialler, {failed, Why}} -> failed(S, Why)
    after left(S) -> failed(S, gave_up)
    end.

%% An end that is ready has shown the cookie, and what is left to do has its whole time.
receive_message({dial, End}, S) -> dial_now(End, end_dial(S));
receive_message({ready, Transport, Socket, Info}, #setup{wait = Wait} = S) ->
    bring_up((end_dial(S))#setup{end_of = Info, socket = {Transport, Socket}}, Wait);
receive_message({failed, Code}, #setup{node = Node} = S) ->
    distnode_access:report(Node, Code),
    failed(S, Code);
receive_message(again, S) -> want(end_dial(S));
receive_message({closed, Id, _}, #setup{end_of = #{id := Id}} = S) -> want(end_dial(S));
%% An end that another process was to hand over, and without a dial that was all there was to wait for.
receive_message({closed, _, _}, #setup{end_of = none} = S) -> want(S);
receive_message({closed, _, _}, S) -> await(S).

%% dist_util brings the peer up by this process's end. Of the own dial the dialler has made the first step, by which the name is said, and
%% this process makes the others, in distnode_script.
bring_up(#setup{kernel = Kernel, socket = {Transport, Socket}, end_of = End} = S, Wait) ->
    Timer = dist_util:start_timer(Wait),
    try distnode_script:we_started(Transport, Kernel, Socket, End, {S#setup.my_node, S#setup.node, S#setup.type}, Timer)
    catch
        throw:{distnode, Why} ->
            dist_util:cancel_timer(Timer),
            over(Why, S)
    end.

over({message, Message}, S) -> receive_message(Message, S);
over({closed, 'StatusRefused', nok}, S) -> await_other(end_dial(S));
over({closed, Why, _}, S) when Why =:= 'Crossed'; Why =:= 'Replaced'; Why =:= 'GaveUp' -> want(end_dial(S));
over({closed, Why, _}, S) -> failed(end_dial(S), Why);
over({failed, Why}, S) -> failed(S, Why);
over(gone, S) -> want(end_dial(S)).

await_other(S) ->
    receive
        {distnode, {ready, _, _, _} = Ready} -> receive_message(Ready, S)
    after ?WAIT_FOR_OTHER -> want(S)
    end.

%% A dial that another end has overtaken, or that the node has closed.
end_dial(#setup{dialler = none, socket = none} = S) -> S#setup{end_of = none};
end_dial(#setup{dialler = none, socket = {Transport, Socket}} = S) ->
    _ = Transport:close(Socket),
    {Data, _, _} = Transport:messages(),
    receive {Data, Socket, _} -> ok after 0 -> ok end,
    end_dial(S#setup{socket = none});
end_dial(#setup{dialler = Dialler, transport = Transport} = S) ->
    unlink(Dialler),
    Ref = monitor(process, Dialler),
    exit(Dialler, kill),
    receive {'DOWN', Ref, process, Dialler, _} -> ok end,
    receive
        {Dialler, {connected, Socket}} -> end_dial(S#setup{dialler = none, socket = {Transport, Socket}});
        {Dialler, _} -> end_dial(S#setup{dialler = none})
    after 0 -> end_dial(S#setup{dialler = none})
    end.

%% The name is on its way before the socket is handed over. Where the end is over the setup has a message of that.
dial(Setup, End, {Transport, Driver, Name, Host, Wait}) ->
    try
        {Ip, Port} = done(distnode_address:find(Driver, Name, Host)),
        Socket = done(Transport:connect(Driver, Ip, Port, Host, Wait)),
        ok = distnode_recording:connection(Transport, Socket),
        Bodies = done(distnode_core:opened(End)),
        ok = done(distnode_shake:say(Transport, Socket, Bodies)),
        ok = done(Transport:controlling_process(Socket, Setup)),
        Setup ! {self(), {connected, Socket}}
    catch
        throw:'Gone' -> ok;
        throw:Why -> Setup ! {self(), {failed, Why}}
    end.

done(ok) -> ok;
done({ok, Socket}) -> Socket;
done({ok, Ip, Port}) -> {Ip, Port};
done({more, Bodies}) -> Bodies;
done({closed, _, _, _}) -> throw('Gone');
done({error, Why}) -> throw(Why).

-spec failed(#setup{}, term()) -> no_return().
failed(#setup{node = Node}, 'WrongDigest') ->
    error_logger:error_msg("** Connection attempt to node ~w cancelled. Invalid challenge ack. **~n", [Node]),
    exit({shutdown, {distnode, 'WrongDigest'}});
failed(_, Why) -> exit({shutdown, {distnode, Why}}).
