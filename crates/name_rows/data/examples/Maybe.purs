module Maybe where

import Basics (class Eq, class Ord, class Semigroup, class Show, Ordering(..), append, compare, eq, show, (<>))
import Control (class Apply, class Applicative, class Bind, class Functor, class Monad)

data Maybe a = Nothing | Just a

data Either a b
  = Left a
  | Right b

instance functorMaybe :: Functor Maybe where
  map f (Just a) = Just (f a)
  map _ Nothing = Nothing

instance applyMaybe :: Apply Maybe where
  apply (Just f) (Just a) = Just (f a)
  apply _ _ = Nothing

instance applicativeMaybe :: Applicative Maybe where
  pure = Just

instance bindMaybe :: Bind Maybe where
  bind m f = case m of
    Nothing -> Nothing
    Just a -> f a
  discard m f = case m of
    Nothing -> Nothing
    Just a -> f a

instance monadMaybe :: Monad Maybe

instance eqMaybe :: Eq a => Eq (Maybe a) where
  eq Nothing Nothing = true
  eq (Just a) (Just b) = eq a b
  eq _ _ = false

instance ordMaybe :: Ord a => Ord (Maybe a) where
  compare = case _, _ of
    Nothing, Nothing -> EQ
    Nothing, Just _ -> LT
    Just _, Nothing -> GT
    Just a, Just b -> compare a b

instance semigroupMaybe :: Semigroup a => Semigroup (Maybe a) where
  append (Just a) (Just b) = Just (a <> b)
  append whole@(Just _) Nothing = whole
  append Nothing other = other

instance showMaybe :: Show a => Show (Maybe a) where
  show = case _ of
    Nothing -> "Nothing"
    Just a -> "(Just " <> show a <> ")"

maybe :: forall a b. b -> (a -> b) -> Maybe a -> b
maybe b f = case _ of
  Just a -> f a
  Nothing -> b

fromMaybe :: forall a. a -> Maybe a -> a
fromMaybe a = maybe a (\x -> x)

isJust :: forall a. Maybe a -> Boolean
isJust (Just _) = true
isJust Nothing = false

either :: forall a b c. (a -> c) -> (b -> c) -> Either a b -> c
either f _ (Left a) = f a
either _ g (Right b) = g b

hush :: forall a b. Either a b -> Maybe b
hush = either (\_ -> Nothing) Just

-- The first of both that is there.
alt :: forall a. Maybe a -> Maybe a -> Maybe a
alt a b
  | Just _ <- a = a
  | true = b

infixl 3 alt as <|>
