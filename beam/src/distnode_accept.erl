%% SPDX-License-Identifier: Apache-2.0
%% The process of an accepted connection, which net_kernel starts and which holds it to its end.
-module(distnode_accept).
-export([start/6, accept/7]).

-include_lib("kernel/include/dist_util.hrl").

%% Between two questions to net_kernel, where it is busy with another attempt of the same peer, in milliseconds.
-define(ASK_AGAIN, 2).

start(Transport, Acceptor, Accepted, MyNode, Allowed, SetupTime) ->
    spawn_opt(?MODULE, accept, [Transport, self(), Acceptor, Accepted, MyNode, Allowed, SetupTime],
              dist_util:net_ticker_spawn_options()).

accept(Transport, Kernel, Acceptor, {Accepted, Begun}, MyNode, Allowed, SetupTime) ->
    Socket = Transport:await(Acceptor, Accepted, Allowed, SetupTime),
    ok = distnode_recording:connection(Transport, Socket),
    case distnode_shake:accepted(Transport, {Socket, Begun}, Allowed, SetupTime) of
        {ready, Info, Timer} ->
            %% The heap of who has shown the cookie, and of nobody else, is as large as that of an own dial.
            _ = process_flag(min_heap_size, distnode_carrier:heap_words()),
            bring_up(Transport, Kernel, Socket, Info, {MyNode, Allowed}, Timer);
        {nameless, Body} -> nameless(Transport, Kernel, Socket, Body, MyNode, Allowed, SetupTime);
        {refused, Peer, Code} ->
            distnode_access:report(Peer, Code),
            exit(shutdown);
        {closed, Why, Peer, Flags} -> closed(Why, Peer, Flags)
    end.

%% Until net_kernel takes the peer, a setup of its own does, or the timer ends this process.
bring_up(Transport, Kernel, Socket, #{id := Id} = Info, Own, Timer) ->
    try distnode_script:other_started(Transport, Kernel, Socket, Info, Own, Timer)
    catch
        throw:{distnode, nok} ->
            case distnode_core:refused(Id) of
                {give, Setup} ->
                    dist_util:cancel_timer(Timer),
                    distnode_shake:give(Transport, Socket, Info, Setup);
                retry -> ask_again(Transport, Kernel, Socket, Info, Own, Timer);
                gone -> exit(shutdown)
            end;
        throw:{distnode, already} -> ask_again(Transport, Kernel, Socket, Info, Own, Timer);
        throw:{distnode, gone} -> exit(shutdown)
    end.

ask_again(Transport, Kernel, Socket, #{id := Id} = Info, Own, Timer) ->
    receive
        {distnode, {closed, Id, _}} -> exit(shutdown)
    after ?ASK_AGAIN -> bring_up(Transport, Kernel, Socket, Info, Own, Timer)
    end.

%% A peer that asks to be given a name (DFLAG_NAME_ME, as erl -remsh does): net_kernel alone gives names, so this handshake is
%% OTP's own, beside the node. Nobody can dial such a peer, so none of its connections crosses another.
nameless(Transport, Kernel, Socket, Body, MyNode, Allowed, SetupTime) ->
    ok = Transport:setopts(Socket, [list, {active, false}]),
    self() ! {distnode, {first, binary_to_list(Body)}},
    dist_util:handshake_other_started(
      (distnode_carrier:hs_data(Transport, Socket))#hs_data{
         kernel_pid = Kernel, this_node = MyNode, timer = dist_util:start_timer(SetupTime), this_flags = 0, allowed = Allowed,
         f_send = fun(_, Words) -> Transport:send(Socket, Words) end,
         f_recv = fun(_, Length, Wait) -> receive_first(Transport, Socket, Length, Wait) end}).

receive_first(Transport, Socket, Length, Wait) ->
    receive
        {distnode, {first, Body}} -> {ok, Body}
    after 0 -> Transport:recv(Socket, Length, Wait)
    end.

-spec closed(term(), binary() | none, non_neg_integer()) -> no_return().
closed(Why, Peer, Flags) ->
    case Why of
        'WrongDigest' ->
            error_logger:error_msg("** Connection attempt from node ~ts rejected. Invalid challenge reply. **~n",
                                   [distnode_access:quoted(Peer)]);
        _ when Why =:= 'Refused'; Why =:= 'WrongFlags' -> distnode_access:report_refused(Peer, Flags);
        not_taken -> distnode_access:report_not_taken(Peer);
        _ -> ok
    end,
    exit(shutdown).
