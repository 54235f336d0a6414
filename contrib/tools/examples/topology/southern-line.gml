# Made by hand, in the form of the Internet Topology Zoo: characters by their numbers, and two parts to which
# no link leads.
graph [
  directed 0
  Network "Southern Line"
  node [
    id 10
    label "S&#227;o Paulo"
    Internal 1
  ]
  node [
    id 11
    label "S&#227;o Paulo"
    Internal 1
  ]
  node [
    id 12
    label "Rio de Janeiro, RJ"
    Internal 1
  ]
  node [
    id 13
    label "Belo Horizonte"
    Internal 1
  ]
  node [
    id 14
    label "Bras&#237;lia"
    Internal 1
  ]
  node [
    id 15
    label "Goi&#226;nia"
    Internal 1
  ]
  node [
    id 16
    label "Cuiab&#225;"
    Internal 1
  ]
  node [
    id 17
    label "Campo Grande"
    Internal 1
  ]
  node [
    id 18
    label "Curitiba"
    Internal 1
  ]
  node [
    id 19
    label "Florian&#243;polis"
    Internal 1
  ]
  node [
    id 20
    label "Porto Alegre"
    Internal 1
  ]
  node [
    id 21
    label "Vit&#243;ria"
    Internal 1
  ]
  node [
    id 22
    label "Salvador (BA)"
    Internal 1
  ]
  node [
    id 23
    label "Aracaju"
    Internal 1
  ]
  node [
    id 24
    label "Macei&#243;"
    Internal 1
  ]
  node [
    id 25
    label "Recife"
    Internal 1
  ]
  node [
    id 26
    label "Jo&#227;o Pessoa"
    Internal 1
  ]
  node [
    id 27
    label "Natal"
    Internal 1
  ]
  node [
    id 28
    label "Fortaleza"
    Internal 1
  ]
  node [
    id 29
    label "Teresina"
    Internal 1
  ]
  node [
    id 30
    label "S&#227;o Lu&#237;s"
    Internal 1
  ]
  node [
    id 31
    label "Bel&#233;m"
    Internal 1
  ]
  node [
    id 32
    label "Manaus"
    Internal 1
  ]
  node [
    id 33
    label "Boa Vista"
    Internal 1
  ]
  node [
    id 34
    label "AT&amp;T / Miami"
    Internal 1
  ]
  node [
    id 35
    label "Rio Branco"
    Internal 1
  ]
  node [
    id 36
    label "Porto Velho"
    Internal 1
  ]
  edge [
    source 10
    target 11
    LinkLabel "10 Gbit/s"
  ]
  edge [
    source 10
    target 12
  ]
  edge [
    source 10
    target 13
  ]
  edge [
    source 10
    target 14
  ]
  edge [
    source 10
    target 18
  ]
  edge [
    source 11
    target 12
  ]
  edge [
    source 11
    target 17
  ]
  edge [
    source 12
    target 21
  ]
  edge [
    source 12
    target 13
  ]
  edge [
    source 13
    target 14
  ]
  edge [
    source 13
    target 22
  ]
  edge [
    source 14
    target 15
  ]
  edge [
    source 14
    target 31
  ]
  edge [
    source 14
    target 28
  ]
  edge [
    source 15
    target 16
  ]
  edge [
    source 16
    target 17
  ]
  edge [
    source 17
    target 18
  ]
  edge [
    source 18
    target 19
  ]
  edge [
    source 19
    target 20
  ]
  edge [
    source 20
    target 10
  ]
  edge [
    source 21
    target 22
  ]
  edge [
    source 22
    target 23
  ]
  edge [
    source 23
    target 24
  ]
  edge [
    source 24
    target 25
  ]
  edge [
    source 25
    target 26
  ]
  edge [
    source 26
    target 27
  ]
  edge [
    source 27
    target 28
  ]
  edge [
    source 28
    target 29
  ]
  edge [
    source 29
    target 30
  ]
  edge [
    source 30
    target 31
  ]
  edge [
    source 28
    target 34
  ]
  edge [
    source 10
    target 34
  ]
  edge [
    source 34
    target 28
  ]
  edge [
    source 35
    target 36
  ]
  edge [
    source 32
    target 33
  ]
  edge [
    source 32
    target 32
  ]
]
