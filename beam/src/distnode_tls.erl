%% SPDX-License-Identifier: Apache-2.0
%% The connections of a carrier over TLS, by OTP's ssl, with the options of inet_tls_dist, whose connections these are on the wire.
%% distnode_tcp has the same calls.
-module(distnode_tls).
-export([protocol/0, childspecs/0, packet/0, messages/0, await/4, connect/5, is_certified/2, controller/1, hs_data/1]).
-export([send/2, recv/3, setopts/2, getopts/2, getstat/2, sockname/1, peername/1, controlling_process/2, close/1]).

-include_lib("kernel/include/dist_util.hrl").

protocol() -> tls.

childspecs() ->
    {ok, Specs} = inet_tls_dist:childspecs(),
    Specs.

packet() -> 4.

messages() -> {ssl, ssl_closed, ssl_error}.

await(Acceptor, Accepted, Allowed, Wait) ->
    Raw = distnode_tcp:await(Acceptor, Accepted, Allowed, Wait),
    {ok, {Ip, _}} = inet:peername(Raw),
    case ssl:handshake(Raw, frames() ++ server_options(Ip, Allowed), Wait) of
        {ok, Socket} -> Socket;
        {error, {options, _}} = Error ->
            error_logger:error_msg("** distnode: TLS connections can't be accepted: ~ts **~n", [ssl:format_error(Error)]),
            ?shutdown(no_node);
        {error, _} -> ?shutdown(no_node)
    end.

connect(Driver, Ip, Port, Host, Wait) ->
    Own = application:get_env(kernel, inet_dist_connect_options, []) ++ client_options(),
    Name = [{server_name_indication, Host} || not proplists:is_defined(server_name_indication, Own)],
    ssl:connect(Ip, Port, [binary, Driver:family(), {nodelay, true} | frames() ++ Name ++ Own], Wait).

%% No frame of the handshake is longer. What follows is not read by ssl in frames.
frames() -> [{active, false}, {packet, packet()}, {packet_size, 65535}].

%% Where there is an allow list, a certificate has to be of the host in the peer's name. A peer that need not show one may have none.
is_certified(Socket, Host) ->
    case ssl:peercert(Socket) of
        {ok, Certificate} -> public_key:pkix_verify_hostname(Certificate, [{dns_id, Host}, {ip, Host}]);
        {error, Why} -> Why =:= no_peercert
    end.

%% The process of ssl that sends, which the emulator is given: in OTP 25 to 27, and in OTP 29.
controller({sslsocket, _, [_Receiver, Sender | _]}) -> Sender;
controller(Socket) -> element(4, Socket).

%% Once the emulator has the connection, its holder ends with it.
hs_data(Socket) ->
    Controller = controller(Socket),
    #hs_data{
       f_setopts_pre_nodeup = fun(_) -> link(Controller), ok end,
       f_setopts_post_nodeup = fun(_) -> ssl:setopts(Socket, [distnode_address:nodelay()]) end,
       mf_tick = fun(_) -> Controller ! tick, ok end,
       f_handshake_complete = fun(_, Node, Handle) -> tls_sender:dist_handshake_complete(Controller, Node, Handle) end}.

send(Socket, Body) -> ssl:send(Socket, Body).
recv(Socket, Length, Wait) -> ssl:recv(Socket, Length, Wait).
setopts(Socket, Options) -> ssl:setopts(Socket, Options).
getopts(Socket, Options) -> ssl:getopts(Socket, Options).
getstat(Socket, Options) -> ssl:getstat(Socket, Options).
sockname(Socket) -> ssl:sockname(Socket).
peername(Socket) -> ssl:peername(Socket).
controlling_process(Socket, Pid) -> ssl:controlling_process(Socket, Pid).

%% ssl may wait for the peer's side to close, and the caller doesn't.
close(Socket) ->
    _ = spawn(ssl, close, [Socket]),
    ok.

%% ---- options as inet_tls_dist reads them, which exports what it has read in later releases (OTP 29). Linux's own TLS is not used.

client_options() -> lists:keydelete(ktls, 1, options("client_", get_ssl_client_options, [])).

%% By verify_client of inet_tls_dist a certificate has to be of the peer's address or of a host in the allow list, if there is one.
server_options(Ip, Allowed) ->
    Marker = fun inet_tls_dist:verify_client/3,
    [case Option of
         {verify_fun, {Marker, _}} -> {verify_fun, {Marker, {hosts(Allowed), Ip}}};
         _ -> Option
     end || Option <- lists:keydelete(ktls, 1, options("server_", get_ssl_server_options, [Ip]))].

hosts(Allowed) -> [Host || Node <- Allowed, Host <- [lists:last(string:split(atom_to_list(Node), "@"))], Host =/= ""].

options(Side, Function, Arguments) ->
    {module, _} = code:ensure_loaded(inet_tls_dist),
    case erlang:function_exported(inet_tls_dist, Function, length(Arguments)) of
        true -> apply(inet_tls_dist, Function, Arguments);
        false -> [{erl_dist, true} | with_versions(arguments(Side) ++ file(Side))]
    end.

with_versions(Options) -> [{versions, ['tlsv1.2']} || Options =/= [], not proplists:is_defined(versions, Options)] ++ Options.

%% -ssl_dist_optfile FILE
file(Side) ->
    case ets:whereis(ssl_dist_opts) =/= undefined andalso ets:lookup(ssl_dist_opts, list_to_atom(lists:droplast(Side))) of
        [{_, Options}] -> Options;
        _ -> []
    end.

%% -ssl_dist_opt client_NAME VALUE server_NAME VALUE ..
arguments(Side) -> arguments(Side, lists:append(proplists:get_all_values(ssl_dist_opt, init:get_arguments()))).

arguments(Side, [Word, Text | More]) ->
    [{list_to_atom(Name), value(Name, Text)} || Name <- [string:prefix(Word, Side)], Name =/= nomatch] ++ arguments(Side, More);
arguments(_, _) -> [].

value("verify_fun", Text) ->
    {Module, Function, State} = term(Text),
    {fun Module:Function/3, State};
value("crl_cache", Text) -> term(Text);
value("ciphers", Text) -> string:lexemes(Text, ":");
value("versions", Text) -> [list_to_atom(Text)];
value(Name, Text) ->
    Kinds = [{fun erlang:list_to_atom/1, ["verify", "crl_check", "reuse_sessions", "secure_renegotiate", "fail_if_no_peer_cert", "ktls"]},
             {fun erlang:list_to_integer/1, ["depth", "hibernate_after"]},
             {fun(Path) -> Path end, ["certfile", "cacertfile", "keyfile", "password", "dhfile"]}],
    case [Read || {Read, Names} <- Kinds, lists:member(Name, Names)] of
        [Read] -> Read(Text);
        [] -> error({malformed_ssl_dist_opt, Name})
    end.

term(Text) ->
    {ok, Tokens, _} = erl_scan:string(Text ++ "."),
    {ok, Term} = erl_parse:parse_term(Tokens),
    Term.
