%% SPDX-License-Identifier: Apache-2.0
%% Starts emulators as processes of the system, for a test that has no distribution of its own, and asks their agents. It ends
%% what it has started and nothing else.
-module(test_nodes).
-export([port_mapper/0, start/1, start/3, start_bare/3, is_tls/0, call/4, call/5, name/1, stop/1, kill/1, signal/2, is_alive/1, log/1]).
-export([has_logged/2, ended/2, wait/2]).

-record(node, {name, port, os_pid, socket = none, log}).

%% A port mapper at a port that nobody has: the port. It ends with the test.
port_mapper() ->
    {ok, Free} = gen_tcp:listen(0, [{ip, {127, 0, 0, 1}}]),
    {ok, Port} = inet:port(Free),
    ok = gen_tcp:close(Free),
    Text = integer_to_list(Port),
    Mapper = open_port({spawn_executable, os:find_executable("sh")},
                       [{args, ["-c", "exec epmd -port " ++ Text ++ " -address 127.0.0.1,127.0.0.2,127.0.0.3,::1 2>/dev/null"]}, exit_status]),
    os:putenv("ERL_EPMD_PORT", Text),
    os:putenv("ERL_EPMD_ADDRESS", "127.0.0.1"),
    true = wait(fun() -> element(1, gen_tcp:connect({127, 0, 0, 1}, Port, [])) =:= ok end, 10000),
    {os_pid, OsPid} = erlang:port_info(Mapper, os_pid),
    {Port, OsPid}.

%% Several at once: [{Short, Kind, Arguments}] with ours | otp | ours6 | otp6, those with a 6 over IPv6; {short | long, ours | otp} with
%% a host that has a name of one part or of several; ours_and_6, ours_and_tls: with two carriers; {limited, Kind}, with 200 descriptors;
%% {later, Kind}, which has no name yet;
%% {program, Command, Environment}, a node that another program starts, with the name Short: the environment is a function of the port
%% that its agent connects to; or {Root, Kind}: of the Erlang that is installed below that folder, which has this test's files under
%% the same names.
start(Specs) ->
    Begun = [begin_one(Spec) || Spec <- Specs],
    try [join(One) || One <- Begun]
    catch
        Class:Reason:Stack ->
            [kill(Node) || {_, Node} <- Begun],
            erlang:raise(Class, Reason, Stack)
    end.

start(Short, Kind, Arguments) ->
    [Node] = start([{Short, Kind, Arguments}]),
    Node.

begin_one({Name, {program, Command, Environment}, []}) ->
    {Listen, Port} = listen(),
    {Listen, opened(Name, "program", Command, Environment(Port))};
begin_one({Short, Kind, Arguments}) ->
    {Listen, Port} = listen(),
    {Listen, start_bare(Short, Kind, Arguments ++ agent(Kind, integer_to_list(Port)))}.

listen() ->
    {ok, Listen} = gen_tcp:listen(0, [binary, {packet, 4}, {active, false}, {ip, {127, 0, 0, 1}}]),
    {ok, Port} = inet:port(Listen),
    {Listen, Port}.

%% Code in embedded mode isn't looked for, so it is loaded by hand there.
agent(release, Port) ->
    Agent = filename:join(os:getenv("TESTS"), "test_agent"),
    ["-eval", lists:flatten(io_lib:format("{module, test_agent} = code:load_abs(~p), test_agent:main([~p]).", [Agent, Port]))];
agent(_, Port) -> ["-run", "test_agent", "main", Port].

join({Listen, Node}) -> join(Listen, Node, 1200).

%% It is looked after now and then, in case it does not start.
join(Listen, Node, Left) ->
    case {gen_tcp:accept(Listen, 100), is_alive(Node)} of
        {{ok, Socket}, _} ->
            ok = gen_tcp:close(Listen),
            Node#node{socket = Socket};
        {_, true} when Left > 0 -> join(Listen, Node, Left - 1);
        _ -> error({not_started, Node#node.name, log(Node)})
    end.

%% One without an agent, which may not start.
start_bare(Short, {Length, Kind}, Arguments) when Length =:= short; Length =:= long ->
    start_bare([os:find_executable("erl")], Short, Kind, Arguments ++ ["-kernel", "inetrc", [$", hosts(), $"]], Length);
start_bare(Short, {later, Kind}, Arguments) -> start_bare([os:find_executable("erl")], Short, Kind, Arguments, later);
start_bare(Short, {limited, Kind}, Arguments) ->
    start_bare([os:find_executable("sh"), "-c", "ulimit -n 200; exec \"$@\"", "sh", os:find_executable("erl")], Short, Kind, Arguments);
start_bare(Short, {Root, Kind}, Arguments) ->
    start_bare([os:find_executable("chroot"), Root, "/usr/bin/erl"], Short, Kind, Arguments);
start_bare(Short, Kind, Arguments) -> start_bare([os:find_executable("erl")], Short, Kind, Arguments).

start_bare(Erl, Short, Kind, Arguments) -> start_bare(Erl, Short, Kind, Arguments, Kind).

start_bare(Erl, Short, Kind, Arguments, HostKind) ->
    {Flag, Host, Interface} = host(HostKind),
    Name = Short ++ "@" ++ Host,
    Command = Erl ++ ["-noinput", "-pa", os:getenv("TESTS"), "-start_epmd", "false",
               "-kernel", "inet_dist_use_interface", Interface] ++ carrier(Kind) ++ [Word || Word <- [Flag, Name], Flag =/= none] ++
        cookie(Arguments) ++ tls(Arguments) ++ Arguments,
    opened(Name, Short, Command, []).

opened(Name, Short, Command, Environment) ->
    Log = filename:join(os:getenv("LOGS"), Short ++ "." ++ integer_to_list(erlang:unique_integer([positive])) ++ ".log"),
    Port = open_port({spawn_executable, os:find_executable("sh")},
                     [{args, ["-c", "exec \"$@\" >" ++ Log ++ " 2>&1", "sh" | Command]}, {env, Environment}, exit_status]),
    {os_pid, OsPid} = erlang:port_info(Port, os_pid),
    #node{name = list_to_atom(Name), port = Port, os_pid = OsPid, log = Log}.

host(Kind) when Kind =:= ours6; Kind =:= otp6 -> {"-name", "::1", "{0,0,0,0,0,0,0,1}"};
host(later) -> {none, "127.0.0.1", "{127,0,0,1}"};
host(short) -> {"-sname", "one", "{127,0,0,1}"};
host(long) -> {"-name", "one.example.test", "{127,0,0,1}"};
host(_) -> {"-name", "127.0.0.1", "{127,0,0,1}"}.

%% The names of this host that no name server knows.
hosts() ->
    File = filename:join(os:getenv("LOGS"), "inetrc"),
    ok = file:write_file(File, "{lookup, [file]}.\n{host, {127,0,0,1}, [\"one\", \"one.example.test\"]}.\n"),
    File.

carrier(ours) -> carrier(os:getenv("EBIN"));
carrier(ours6) -> ["-proto_dist", protocol("distnode6"), "-pa", os:getenv("EBIN")];
carrier(otp) -> ["-proto_dist", protocol("inet")];
carrier(otp6) -> ["-proto_dist", protocol("inet6")];
carrier(ours_and_6) -> ["-proto_dist", "distnode", "distnode6", "-pa", os:getenv("EBIN")];
carrier(ours_and_tls) -> ["-proto_dist", "distnode", "distnode_tls", "-pa", os:getenv("EBIN")];
carrier(release) -> ["-proto_dist", protocol("distnode")];
carrier(Ebin) -> ["-proto_dist", protocol("distnode"), "-pa", Ebin].

protocol(Name) ->
    case {is_tls(), lists:prefix("inet", Name)} of
        {true, _} -> Name ++ "_tls";
        {false, true} -> Name ++ "_tcp";
        {false, false} -> Name
    end.

%% Are nodes started over TLS?
is_tls() -> os:getenv("TLS") =:= "1".

tls(Arguments) ->
    case is_tls() andalso not lists:any(fun(Word) -> lists:prefix("-ssl_dist_opt", Word) end, Arguments) of
        true -> ["-ssl_dist_optfile", test_certificates:options("node")];
        false -> []
    end.

cookie(Arguments) -> case lists:member("-setcookie", Arguments) of true -> []; false -> ["-setcookie", "test"] end.

name(#node{name = Name}) -> Name.

call(Node, M, F, A) -> call(Node, M, F, A, 60000).

call(#node{socket = Socket, name = Name}, M, F, A, Wait) ->
    Ref = erlang:unique_integer(),
    ok = gen_tcp:send(Socket, term_to_binary({Ref, {M, F, A}})),
    case gen_tcp:recv(Socket, 0, Wait) of
        {ok, Bin} ->
            case binary_to_term(Bin) of
                {Ref, {ok, Value}} -> Value;
                {Ref, Other} -> error({Name, M, F, A, Other})
            end;
        {error, Why} -> error({Name, M, F, A, Why})
    end.

signal(#node{os_pid = OsPid}, Signal) ->
    os:cmd("kill -" ++ Signal ++ " " ++ integer_to_list(OsPid)),
    ok.

kill(Node) ->
    signal(Node, "KILL"),
    ended(Node, 20000).

stop(#node{socket = none} = Node) -> kill(Node);
stop(#node{socket = Socket} = Node) ->
    gen_tcp:close(Socket),
    case is_alive(Node) andalso ended(Node, 10000) of
        timeout -> kill(Node);
        Status -> Status
    end.

%% The status with which it ends, or timeout.
ended(#node{port = Port} = Node, Wait) ->
    receive {Port, {exit_status, Status}} -> Status
    after Wait -> case is_alive(Node) of true -> timeout; false -> gone end
    end.

is_alive(#node{port = Port}) -> erlang:port_info(Port) =/= undefined.

%% Has it logged this, or does it within 5 seconds?
has_logged(Node, Text) -> wait(fun() -> re:run(log(Node), Text) =/= nomatch end, 5000).

log(#node{log = Log}) ->
    {ok, Text} = file:read_file(Log),
    Text.

%% Until a condition holds: true, or {timeout, What} with what it returned last.
wait(Condition, Wait) -> wait_until(Condition, erlang:monotonic_time(millisecond) + Wait).

wait_until(Condition, Deadline) ->
    case Condition() of
        true -> true;
        Other ->
            case erlang:monotonic_time(millisecond) > Deadline of
                true -> {timeout, Other};
                false -> receive after 5 -> wait_until(Condition, Deadline) end
            end
    end.
