module Effects (Effect, main, log, forEach, greet) where

import Basics (Unit, unit, (<>), ($), (<), (+), show)
import Control
import List as List
import List (List(..), (:), range)
import Maybe (Maybe(..), fromMaybe, maybe) as Maybe

foreign import data Effect :: Type -> Type
foreign import log :: String -> Effect Unit
foreign import pureEffect :: forall a. a -> Effect a
foreign import bindEffect :: forall a b. Effect a -> (a -> Effect b) -> Effect b
foreign import readLine :: Effect String

instance functorEffect :: Functor Effect where
  map f e = bindEffect e \a -> pureEffect (f a)

instance applyEffect :: Apply Effect where
  apply ef ea = bindEffect ef \f -> bindEffect ea \a -> pureEffect (f a)

instance applicativeEffect :: Applicative Effect where
  pure = pureEffect

instance bindInstance :: Bind Effect where
  bind = bindEffect
  discard = bindEffect

instance monadEffect :: Monad Effect

forEach :: forall a. List a -> (a -> Effect Unit) -> Effect Unit
forEach Nil _ = pure unit
forEach (x : xs) f = do
  f x
  forEach xs f

greet :: { name :: String, times :: Int } -> Effect Unit
greet { name, times } =
  forEach (range 1 times) \n ->
    log $ "Hello, " <> name <> "! (" <> show n <> ")"

ask :: String -> Effect String
ask question = do
  log question
  readLine

quote :: String
quote = """He said "go", and went: \ is no escape here."""

multiline :: String
multiline = "one \
  \line"

main :: Effect Unit
main = do
  name <- ask "What is your name?"
  greet { name, times: 3 }
  let answer = List.sum (1 : 2 : 3 : Nil)
  log ("The sum is " <> show answer)
  log (Maybe.fromMaybe "nothing" (List.head ("first" : Nil)))
  when (answer < 10) unit do
    log "small"
    log quote
