# SPDX-License-Identifier: Apache-2.0
defmodule MyApp do
  @moduledoc "A keeper that is one in all nodes, by `:global`, and four workers in each node that are one group of `:pg`."
  use Application

  def start(_type, _arguments) do
    workers = for number <- 1..4, do: Supervisor.child_spec({MyApp.Worker, number}, id: number)
    children = [%{id: :pg, start: {:pg, :start_link, []}}, MyApp.Keeper | workers]
    Supervisor.start_link(children, strategy: :one_for_one, max_restarts: 100)
  end
end

defmodule MyApp.Worker do
  use GenServer

  def start_link(number), do: GenServer.start_link(__MODULE__, number)

  def init(number) do
    :ok = :pg.join(:workers, self())
    {:ok, number}
  end
end

defmodule MyApp.Keeper do
  @moduledoc "Takes the name, or waits until the process that has it is gone. After a cut `:global` ends one of two."
  use GenServer

  def start_link(_), do: GenServer.start_link(__MODULE__, nil)

  def init(_), do: {:ok, nil, {:continue, :take}}

  def handle_continue(:take, _) do
    case :global.register_name(:keeper, self()) do
      :yes -> {:noreply, :holds}
      :no -> await(:global.whereis_name(:keeper))
    end
  end

  def handle_info({:DOWN, _, :process, _, _}, _), do: {:noreply, nil, {:continue, :take}}
  def handle_info(_, state), do: {:noreply, state}

  defp await(:undefined), do: {:noreply, nil, {:continue, :take}}

  defp await(holder) do
    Process.monitor(holder)
    {:noreply, :waits}
  end
end
