%% SPDX-License-Identifier: Apache-2.0
%% Certificates for nodes over TLS, in a folder, with files of options as -ssl_dist_optfile takes them: of nodes at the hosts of the
%% cases, of a node at another host, and of a node whose authority nobody trusts.
%% Nothing is made where OTP's ssl is not installed.
-module(test_certificates).
-export([main/1, options/1, client/1]).

%% Some releases look for an address among the names, others among the addresses.
-define(HOSTS, [{dNSName, Host} || Host <- ["127.0.0.1", "::1", "one", "one.example.test"]] ++
            [{iPAddress, <<127, 0, 0, 1>>}, {iPAddress, <<1:128>>}]).

main([Folder]) ->
    _ = [make(Folder) || code:which(ssl) =/= non_existing],
    halt().

make(Folder) ->
    ok = filelib:ensure_dir(filename:join(Folder, "x")),
    Root = root("authority"),
    Trusted = pem(Folder, "authority", [{'Certificate', maps:get(cert, Root), not_encrypted}]),
    write(Folder, "node", Root, ?HOSTS, Trusted),
    write(Folder, "elsewhere", Root, [{dNSName, "elsewhere.example.test"}], Trusted),
    write(Folder, "untrusted", root("stranger"), ?HOSTS, Trusted).

%% The file of options of a node that has this certificate, and trusts those of the authority; what it has for dials.
options(Name) -> filename:join(os:getenv("CERTIFICATES"), Name ++ ".options").

client(Name) ->
    {ok, [Options]} = file:consult(options(Name)),
    proplists:get_value(client, Options).

write(Folder, Name, Root, Hosts, Trusted) ->
    %% subjectAltName of RFC 5280
    Names = {'Extension', {2, 5, 29, 17}, false, Hosts},
    Made = public_key:pkix_test_data(#{root => Root, intermediates => [], peer => [{extensions, [Names]} | key()]}),
    {Type, Key} = proplists:get_value(key, Made),
    File = pem(Folder, Name, [{'Certificate', proplists:get_value(cert, Made), not_encrypted}, {Type, Key, not_encrypted}]),
    Common = [{certfile, File}, {keyfile, File}, {cacertfile, Trusted}, {verify, verify_peer}],
    Server = [{fail_if_no_peer_cert, true}, {verify_fun, {fun inet_tls_dist:verify_client/3, []}} | Common],
    ok = file:write_file(filename:join(Folder, Name ++ ".options"), io_lib:format("~p.~n", [[{server, Server}, {client, Common}]])).

root(Name) -> public_key:pkix_test_root_cert(Name, key()).

%% What OTP 25 makes with a curve, OTP 29 doesn't read.
key() -> [{digest, sha256}, {key, {rsa, 2048, 65537}}].

pem(Folder, Name, Entries) ->
    File = filename:join(Folder, Name ++ ".pem"),
    ok = file:write_file(File, public_key:pem_encode(Entries)),
    File.
